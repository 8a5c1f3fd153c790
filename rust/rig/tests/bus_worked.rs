//! Worked cases of a bus, by hand from the paper, on libm25p.a and on the model beside it: what one chip does and the
//! others do not, waits that end some cycles, and refused calls.

#[path = "support/buses.rs"]
mod buses;

use buses::{sent, Sweep};
use rig::compare::bus::Call;
use rig::model::{Packed, Record};

/// The bytes of the bench part and of the M25P10-A.
const BENCH: usize = 4_096;
const M25P10A: usize = 131_072;

/// Chips as delivered: standby, latch reset, a program of 3 ticks, a sector erase of 5, a bulk erase of 9, a status write
/// of 2; their bytes are all 3C.
fn bus(parts: &[u8]) -> Sweep {
    let mut sweep =
        Sweep::new(&parts.iter().map(|part| Record::standby(*part)).collect::<Vec<_>>());
    for place in 0..parts.len() {
        let bytes = vec![0x3C; sweep.bytes(place).len()];
        sweep.put(place, &bytes);
    }
    sweep
}

impl Sweep {
    /// The answer number of a transaction.
    fn ask(&mut self, chip: u32, bytes: &[u8]) -> u8 {
        self.call(sent(chip, bytes)) as u8
    }

    fn wait(&mut self, ticks: u32) {
        assert_eq!(self.call(Call::Wait(ticks)), 0);
    }

    /// The status bytes of the first chips.
    fn status<const CHIPS: usize>(&mut self) -> [u8; CHIPS] {
        std::array::from_fn(|chip| {
            assert_eq!(self.call(sent(chip as u32, &[0x05, 0x00])), 1 << 16 | 1 << 8);
            self.response(2)[1]
        })
    }
}

/// A program of one chip: its latch, its cycle and its byte, while another goes on being read.
#[test]
fn one_programs() {
    let mut bus = bus(&[0, 1]);
    assert_eq!(bus.ask(1, &[0x06]), 0);
    assert_eq!(bus.status(), [0x00, 0x02]);
    // the other chip's latch is not set
    assert_eq!(bus.ask(0, &[0x02, 0, 0, 0x10, 0x18]), 16);
    // 7E over 3C: bits 6 and 1 are missing
    assert_eq!(bus.call(sent(1, &[0x02, 0, 0, 0x10, 0x7E])), 2 << 48);
    assert_eq!(bus.status(), [0x00, 0x03]);
    assert_eq!(bus.ask(1, &[0x03, 0, 0, 0x10, 0]), 12);
    assert_eq!(bus.call(sent(0, &[0x03, 0, 0, 0x10, 0])), 1 << 16 | 4 << 8);
    assert_eq!(bus.response(5), [0xFF, 0xFF, 0xFF, 0xFF, 0x3C]);
    bus.wait(2);
    assert_eq!(bus.status(), [0x00, 0x01]);
    assert_eq!(bus.pair.real.array()[BENCH + 16], 0x3C);
    bus.wait(1);
    assert_eq!(bus.status(), [0x00, 0x00]);
    // the chip's byte 16 stands behind the bench part's 4,096
    assert_eq!(bus.pair.real.array()[BENCH + 16], 0x3C & 0x7E);
    let mut bytes = bus.pair.real.array()[..BENCH + M25P10A].to_vec();
    bytes[BENCH + 16] = 0x3C;
    assert!(bytes.iter().all(|byte| *byte == 0x3C));
}

/// Three cycles that end after 3, 5 and 2 ticks, by two waits.
#[test]
fn waits_end_some_cycles() {
    let mut bus = bus(&[0, 5, 0]);
    for chip in 0..3 {
        assert_eq!(bus.ask(chip, &[0x06]), 0);
    }
    assert_eq!(bus.ask(0, &[0x02, 0, 0, 0, 0x0F]), 0);
    assert_eq!(bus.ask(1, &[0xD8, 0, 0x80, 0]), 0);
    assert_eq!(bus.ask(2, &[0x01, 0x8C]), 0);
    assert_eq!(bus.status(), [0x03, 0x03, 0x03]);
    bus.wait(1);
    assert_eq!(bus.status(), [0x03, 0x03, 0x01]);
    bus.wait(2);
    assert_eq!(bus.status(), [0x00, 0x03, 0x8C]);
    assert_eq!(bus.bytes(0)[..2], [0x0C, 0x3C]);
    assert!(bus.bytes(1).iter().all(|byte| *byte == 0x3C));
    bus.wait(u32::MAX);
    assert_eq!(bus.status(), [0x00, 0x00, 0x8C]);
    // sector 1 of the M25P10-A, and no more
    let erased = |at: usize| (32_768..65_536).contains(&at);
    let right = |(at, byte): (usize, &u8)| *byte == if erased(at) { 0xFF } else { 0x3C };
    assert!(bus.bytes(1).iter().enumerate().all(right));
    assert!(bus.bytes(2).iter().all(|byte| *byte == 0x3C));
}

/// A bulk erase is of one chip's bytes.
#[test]
fn one_is_erased() {
    let mut bus = bus(&[0, 0, 0]);
    assert_eq!((bus.ask(1, &[0x06]), bus.ask(1, &[0xC7])), (0, 0));
    bus.wait(9);
    let erased = [false, true, false];
    for (place, erased) in erased.into_iter().enumerate() {
        let byte = if erased { 0xFF } else { 0x3C };
        assert!(bus.bytes(place).iter().all(|one| *one == byte), "{place}");
    }
}

/// Settings, locks and deep power-down are a chip's own.
#[test]
fn settings_are_ones_own() {
    let mut bus = bus(&[0, 6, 0]);
    assert_eq!((bus.ask(0, &[0x06]), bus.ask(0, &[0x01, 0x8C])), (0, 0));
    assert_eq!((bus.ask(1, &[0x06]), bus.ask(1, &[0xE5, 0, 0, 0, 0x03])), (0, 0));
    assert_eq!(bus.ask(2, &[0xB9]), 0);
    bus.wait(2);
    for chip in 0..3 {
        let enabled = bus.ask(chip, &[0x06]);
        assert_eq!(enabled, if chip == 2 { 13 } else { 0 });
    }
    let program = [0x02, 0, 0, 0, 0x00];
    assert_eq!([0, 1, 2].map(|chip| bus.ask(chip, &program)), [17, 17, 13]);
    // sector 1 of the M25PE40 is not locked, and BP is the other chip's
    assert_eq!(bus.ask(1, &[0x02, 1, 0, 0, 0x00]), 0);
    // a release of one is none of another
    assert_eq!((bus.ask(0, &[0xAB]), bus.ask(2, &[0x06])), (0, 13));
    assert_eq!((bus.ask(2, &[0xAB]), bus.ask(2, &[0x06])), (0, 0));
    // W low freezes the first chip's settings alone
    let low = |chip| Call::Transact { chip, sent: vec![0x01, 0x00], pulses: 0, w: 0 };
    assert_eq!([bus.call(low(0)), bus.call(low(2))], [18, 0]);
}

/// A read rolls over to its own chip's first byte, and each chip has its own identification and signature.
#[test]
fn reads_are_ones_own() {
    let mut bus = bus(&[1, 0, 6, 2]);
    bus.put(1, &[&[0x11][..], &[0x3C; BENCH - 2], &[0x99]].concat());
    assert_eq!(bus.call(sent(1, &[0x03, 0, 0x0F, 0xFF, 0, 0, 0])), 3 << 16 | 4 << 8);
    assert_eq!(bus.response(7)[4..], [0x99, 0x11, 0x3C]);
    // 1000 hexadecimal is 0 for the bench part, whoever stands behind it
    assert_eq!(bus.ask(1, &[0x03, 0, 0x10, 0x00, 0]), 0);
    assert_eq!(bus.response(5)[4], 0x11);
    let identified: [[u8; 3]; 4] = std::array::from_fn(|chip| {
        assert_eq!(bus.ask(chip as u32, &[0x9F, 0, 0, 0]), 0);
        bus.response(4)[1..].try_into().unwrap()
    });
    let expected = [[0x20, 0x20, 0x11], [0x00, 0x00, 0x0C], [0x20, 0x80, 0x13], [0x20, 0x20, 0x13]];
    assert_eq!(identified, expected);
}

/// A record of the bench part that is not sound: BP 4.
fn unsound() -> Packed {
    let mut record = Record::standby(0).pack();
    record[1] = 4;
    record
}

/// A chip, lengths of row and array, and perhaps a place whose record is not sound; the number.
type Refused = (u32, [usize; 2], Option<usize>, u64);

/// Bench parts, of which nine stand one behind the other; the chip is to show its status.
#[test]
fn refused() {
    let cases: [Refused; 18] = [
        (0, [304, 4_096], None, 0),
        (0, [0, 0], None, 51),
        (0, [303, 4_096], None, 8),
        (0, [305, 4_096], None, 8),
        (0, [9 * 304, 9 * 4_096], None, 51),
        (9, [9 * 304, 1], Some(0), 51),
        (7, [8 * 304, 8 * 4_096], None, 0),
        (8, [8 * 304, 8 * 4_096], None, 52),
        (1, [304, 4_096], None, 52),
        (256, [304, 4_096], None, 52),
        (0x8000_0000, [304, 4_096], None, 52),
        (2, [2 * 304, 0], Some(1), 52),
        (0, [2 * 304, 2 * 4_096], Some(1), 6),
        (1, [2 * 304, 0], Some(0), 6),
        (0, [2 * 304, 2 * 4_096], Some(2), 0),
        (0, [2 * 304, 2 * 4_096 - 1], None, 53),
        (0, [2 * 304, 2 * 4_096 + 1], None, 53),
        (0, [2 * 304, 4_096], None, 53),
    ];
    let mut bus = bus(&[0; 9]);
    for (chip, lengths, place, number) in cases {
        let records: Vec<(usize, Packed)> = place.into_iter().map(|at| (at, unsound())).collect();
        let answer = bus.call_lent(records.clone(), sent(chip, &[0x05]), lengths);
        assert_eq!(answer, number, "chip {chip}, lengths {lengths:?}, not sound {place:?}");
        // a wait names no chip
        if number != 52 {
            assert_eq!(bus.call_lent(records, Call::Wait(1), lengths), number, "{lengths:?}");
        }
    }
    // behind 53 come 3, 4 and 5
    let long = Call::Transact { chip: 0, sent: vec![0x05; 65_537], pulses: 8, w: 1 };
    let pulsed = Call::Transact { chip: 0, sent: vec![0x05; 65_536], pulses: 8, w: 1 };
    assert_eq!(bus.call_filling(vec![], long.clone(), [304, 4_095], 0), 53);
    assert_eq!(bus.call_filling(vec![], long, [304, 4_096], 0), 3);
    assert_eq!(bus.call_filling(vec![], pulsed, [304, 4_096], 0), 4);
    assert_eq!(bus.call_filling(vec![], sent(0, &[0x05, 0]), [304, 4_096], 1), 5);
    assert_eq!(bus.call_filling(vec![], sent(0, &[]), [304, 4_096], 0), 11);
}
