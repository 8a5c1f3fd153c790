//! A row of chips on one bus: each does what it does alone, whatever stands beside it; time passes for all; and what is
//! refused, in which order, with every byte as it was.

use std::panic::{catch_unwind, AssertUnwindSafe};

use m25p::bus::MOST_CHIPS;
use m25p::{calls, pins, Answer, Bus, Chip, Cycle, Durations, Part, MASK_BYTES, RECORD_BYTES};

/// Parts of each size but the largest, and one of them twice.
const ROW: [Part; 5] = [Part::Bench, Part::M25pe40, Part::M25p10a, Part::Bench, Part::M25p40];

/// Durations of its own for each chip.
fn durations(chip: usize) -> Durations {
    let ticks = chip as u32 + 1;
    [ticks, 5 * ticks, 20 * ticks, 2 * ticks].into()
}

fn delivered(parts: &[Part]) -> Bus {
    let chips: Vec<_> = parts.iter().enumerate().map(|(i, part)| (*part, durations(i))).collect();
    Bus::deliver(&chips).unwrap()
}

/// The same chips, each by itself.
fn alone(parts: &[Part]) -> Vec<Chip> {
    let chips = parts.iter().enumerate();
    chips.map(|(i, part)| Chip::deliver(*part, durations(i)).unwrap()).collect()
}

/// Every chip of the bus is the one by itself.
fn assert_same(bus: &Bus, chips: &[Chip]) {
    assert_eq!(bus.parts().len(), chips.len());
    for (i, chip) in chips.iter().enumerate() {
        assert_eq!((bus.parts()[i], bus.record(i)), (chip.part(), chip.record()), "chip {i}");
        assert!(bus.array(i) == chip.array(), "chip {i} has other bytes");
        assert_eq!(bus.cycle(i), chip.cycle(), "chip {i}");
    }
}

/// Bytes without a pattern.
struct Draws(u32);

impl Draws {
    fn below(&mut self, end: usize) -> usize {
        self.0 = self.0.wrapping_mul(1_664_525).wrapping_add(1_013_904_223);
        (self.0 >> 8) as usize % end
    }

    /// A transaction that is often executed: in the first page or in the last sector.
    fn sent(&mut self) -> Vec<u8> {
        let address = [[0x00, 0x00, 0x10], [0xFF, 0xFF, 0x80]][self.below(2)];
        let behind = |code: u8, bytes: &[u8]| [&[code], &address[..], bytes].concat();
        match self.below(12) {
            0..4 => vec![0x06],
            4 => vec![0x05, 0, 0],
            5 => behind(0x03, &[0; 5]),
            6 => behind(0x02, &[self.below(256) as u8; 3]),
            7 => behind(0xD8, &[]),
            8 => behind(0x0A, &[0xA5, 0x5A]),
            9 => vec![0x01, 0x80 + 4 * self.below(2) as u8],
            10 => vec![[0xB9, 0xAB, 0xC7, 0x77][self.below(4)]],
            _ => vec![],
        }
    }
}

/// A long life of a bus and of its chips by themselves, step by step the same.
#[test]
fn as_if_alone() {
    let (mut bus, mut chips, mut draws) = (delivered(&ROW), alone(&ROW), Draws(1));
    let mut seen = [0; 256];
    for step in 0..3_000 {
        if draws.below(8) == 0 {
            let ticks = draws.below(30) as u32;
            bus.wait(ticks);
            chips.iter_mut().for_each(|chip| chip.wait(ticks));
        } else {
            let (chip, sent) = (draws.below(ROW.len()), draws.sent());
            let (pulses, w_high) = ((draws.below(40) / 38 * 3) as u32, draws.below(4) > 0);
            let one = chips[chip].transact(&sent, pulses, w_high);
            assert_eq!(bus.transact(chip, &sent, pulses, w_high), one, "step {step}, {sent:02X?}");
            seen[usize::from(one.answer.number())] += 1;
        }
        if step % 50 == 0 {
            assert_same(&bus, &chips);
        }
    }
    assert_same(&bus, &chips);
    assert!(seen[0] > 500 && [11, 12, 13, 14, 15, 16, 17, 18].iter().all(|n| seen[*n] > 5));
}

/// The samples of one transaction, two for each bit.
fn clocked(sent: &[u8]) -> Vec<u8> {
    let low = pins::W | pins::HOLD;
    let bits = sent.iter().flat_map(|byte| (0..8).rev().map(move |bit| byte >> bit & 1));
    let levels = bits.map(|bit| if bit == 1 { low | pins::DATA } else { low });
    let clocked = levels.flat_map(|level| [level, level | pins::CLOCK]);
    clocked.chain([low, pins::REST]).collect()
}

/// Power, raw pins and batches of one chip, in the middle of the row.
#[test]
fn one_chip_of_the_row() {
    let (mut bus, mut chips) = (delivered(&ROW), alone(&ROW));
    let status = clocked(&[0x05, 0]);
    let items = [1, 0, 1, 0x06, 5, 0, 1, 0x02, 0, 0, 0, 0x5A, 4, 0, 16, 9, 0, 0, 0];
    for (i, chip) in chips.iter_mut().enumerate() {
        assert_eq!(bus.batch(i, &items), chip.batch(&items));
        let run = bus.pins(i, &status).unwrap();
        assert!(run.output.contains(&0) && chip.pins(&status) == Ok(run), "chip {i}");
        for sent in [&[0x06][..], &[0x02, 0, 0, 0, 0x18]] {
            assert_eq!(bus.transact(i, sent, 0, true), chip.transact(sent, 0, true));
        }
    }
    assert_same(&bus, &chips);
    assert_eq!(bus.cycle(2), Some(Cycle::Program { address: 0 }));
    bus.power_up(2);
    chips[2].power_up();
    assert_eq!(bus.array(2)[0], 0x18);
    bus.loss(3, &[0x40; MASK_BYTES], false);
    chips[3].loss(&[0x40; MASK_BYTES], false);
    assert_eq!(bus.array(3)[0], 0x58);
    bus.array_mut(1)[7] = 0x77;
    chips[1].array_mut()[7] = 0x77;
    assert_same(&bus, &chips);
    assert_eq!(bus.batch(1, &[0]), Err(Answer::BadItem));
    assert_same(&bus, &chips);
}

/// Where records and bytes lie.
#[test]
fn places() {
    let bus = delivered(&[Part::M25p10a, Part::Bench, Part::M25p32]);
    let ranges = [0, 1, 2].map(|chip| bus.array_range(chip));
    assert_eq!(ranges, [0..131_072, 131_072..135_168, 135_168..4_329_472]);
    assert_eq!((bus.row().len(), bus.whole_array().len()), (3 * RECORD_BYTES, 4_329_472));
    assert!(bus.whole_array().iter().all(|byte| *byte == 0xFF));
    let parts = bus.row().chunks(RECORD_BYTES).map(|record| (record[0], record[12]));
    assert_eq!(parts.collect::<Vec<_>>(), [(1, 1), (0, 2), (3, 3)]);
}

/// One wait ends a short cycle, leaves a long one its last ticks, and does not touch a chip at rest.
#[test]
fn one_wait_for_all() {
    let mut bus = delivered(&[Part::Bench; 4]);
    for (chip, sent) in [(0, &[0x02, 0, 0, 0, 0x11][..]), (1, &[0x02, 0, 0, 0, 0x22]), (3, &[0xC7])]
    {
        bus.array_mut(chip)[4_095] = 0x00;
        bus.transact(chip, &[0x06], 0, true).executed().unwrap();
        bus.transact(chip, sent, 0, true).executed().unwrap();
    }
    let resting = bus.record(2).to_vec();
    bus.wait(2);
    assert_eq!([0, 1, 2, 3].map(|chip| bus.array(chip)[0]), [0x11, 0x22, 0xFF, 0xFF]);
    assert_eq!(
        [0, 1, 2, 3].map(|chip| bus.cycle(chip)),
        [None, None, None, Some(Cycle::BulkErase)]
    );
    assert_eq!((bus.array(3)[4_095], bus.record(3)[8]), (0x00, 4 * 20 - 2));
    bus.wait(1 << 31);
    assert_eq!([0, 1, 2, 3].map(|chip| bus.array(chip)[4_095]), [0x00, 0x00, 0xFF, 0xFF]);
    assert_eq!((bus.cycle(3), &resting[..]), (None, &bus.record(2)[..]));
}

/// Eight of the largest part, with the last one chosen.
#[test]
fn the_largest_row() {
    let mut bus = delivered(&[Part::M25p128; MOST_CHIPS]);
    let last = bus.array_range(7).end;
    assert_eq!((last, bus.whole_array().len()), (8 << 24, 8 << 24));
    bus.transact(7, &[0x06], 0, true).executed().unwrap();
    bus.transact(7, &[0x02, 0xFF, 0xFF, 0xFF, 0x5A], 0, true).executed().unwrap();
    bus.wait(8);
    let read = bus.transact(7, &[0x03, 0xFF, 0xFF, 0xFF, 0, 0], 0, true);
    assert_eq!(read.driven(), [0x5A, 0xFF]);
    let (end, others) = bus.whole_array().split_last().unwrap();
    assert!(*end == 0x5A && others.iter().all(|byte| *byte == 0xFF));
}

#[test]
fn refused_rows() {
    let one = (Part::Bench, Durations::default());
    let refused = |chips: &[_]| Bus::deliver(chips).err();
    assert_eq!(refused(&[]), Some(Answer::RowLength));
    assert_eq!(refused(&[one; 9]), Some(Answer::RowLength));
    let never = Durations { bulk_erase: 0, ..Durations::default() };
    assert_eq!(refused(&[one, (Part::Bench, never), one]), Some(Answer::Duration));
    assert!(Bus::deliver(&[one; 8]).is_ok());
}

/// What a transaction on a bus is refused with: the chip, and what the chip alone refuses.
#[test]
fn refused_transactions() {
    let mut bus = delivered(&[Part::Bench, Part::M25p10a]);
    let before = bus.clone();
    for chip in [2, 256, 1 << 16, u32::MAX as usize, 1 << 32, usize::MAX] {
        let refused = bus.transact(chip, &[0x06], 8, true);
        assert_eq!((refused.answer, &refused.line[..]), (Answer::ChipNotThere, &[0xFF][..]));
    }
    assert_eq!(bus.transact(1, &[0x05; 65_537], 8, true).answer, Answer::SentLength);
    assert_eq!(bus.transact(1, &[0x05; 65_536], 8, true).answer, Answer::Pulses);
    assert!(bus == before);
    assert_eq!(bus.transact(1, &[0x05; 65_536], 7, true).answer, Answer::Executed);
}

/// All but a transaction panics for a chip that is not in the row, and the row stays as it was.
#[test]
fn chips_that_are_not_there() {
    let before = delivered(&[Part::Bench, Part::M25p10a]);
    let uses: [fn(&mut Bus); 9] = [
        |bus| bus.power_up(2),
        |bus| bus.loss(2, &[0; MASK_BYTES], true),
        |bus| _ = bus.pins(2, &[]),
        |bus| _ = bus.batch(2, &[]),
        |bus| _ = bus.cycle(2),
        |bus| _ = bus.record(2),
        |bus| _ = bus.array(2),
        |bus| _ = bus.array_mut(2),
        |bus| _ = bus.array_range(2),
    ];
    for (i, used) in uses.into_iter().enumerate() {
        let mut bus = before.clone();
        let end = catch_unwind(AssertUnwindSafe(|| used(&mut bus)));
        assert!(end.is_err() && bus == before, "use {i}");
    }
}

/// The buffers of a call on slices.
#[derive(Clone, PartialEq)]
struct Lent {
    row: Vec<u8>,
    array: Vec<u8>,
    response: Vec<u8>,
}

/// Three chips, each with a program running, and a response as long as what is sent.
fn lent() -> Lent {
    let mut bus = delivered(&[Part::Bench, Part::M25p10a, Part::Bench]);
    for chip in 0..3 {
        bus.transact(chip, &[0x06], 0, true).executed().unwrap();
        bus.transact(chip, &[0x02, 0, 0, 0, 0x5A], 0, true).executed().unwrap();
    }
    Lent { row: bus.row().to_vec(), array: bus.whole_array().to_vec(), response: vec![0xC3; 3] }
}

/// What the calls answer, the transaction and then the wait. Where that is a refusal, every byte stays.
fn answers(lent: &Lent, chip: u32, sent: &[u8], pulses: u32) -> [u8; 2] {
    let mut after = lent.clone();
    let Lent { row, array, response } = &mut after;
    let sent = calls::bus_transact(row, array, chip, sent, pulses, 1, response).answer();
    assert!(sent == Answer::Executed || after == *lent, "{sent}, and bytes have changed");
    let mut after = lent.clone();
    let waited = calls::bus_wait(&mut after.row, &mut after.array, 9).answer();
    assert!(waited == Answer::Executed || after == *lent, "{waited}, and bytes have changed");
    [sent.number(), waited.number()]
}

/// One fault after the other is taken away, in the order of the numbers.
#[test]
fn order_of_refusals() {
    let good = lent();
    let mut bad = good.clone();
    bad.row.extend([0xFF; 304 * 6 + 1]);
    bad.array.push(0);
    bad.response.truncate(1);
    let long = vec![0x05; 65_537];
    assert_eq!(answers(&bad, 3, &long, 8), [8, 8]);
    bad.row.pop();
    assert_eq!(answers(&bad, 9, &long, 8), [51, 51]);
    bad.row.truncate(304 * 3);
    bad.row[304 * 2 + 5] = 1;
    assert_eq!(answers(&bad, 3, &long, 8), [52, 6]);
    assert_eq!(answers(&bad, 0, &long, 8), [6, 6]);
    bad.row[304 * 2 + 5] = 0;
    assert_eq!(answers(&bad, 0, &long, 8), [53, 53]);
    bad.array.pop();
    assert_eq!(answers(&bad, 0, &long, 8), [3, 0]);
    assert_eq!(answers(&bad, 0, &long[1..], 8), [4, 0]);
    assert_eq!(answers(&bad, 0, &long[1..], 7), [5, 0]);
    assert_eq!(answers(&bad, 0, &[0x05], 7), [0, 0]);
}

/// Rows of every length, and the array that is the sum of others.
#[test]
fn rows_and_arrays() {
    let good = lent();
    let with = |row: &[u8], array: &[u8]| {
        let lent = Lent { row: row.to_vec(), array: array.to_vec(), response: vec![0; 3] };
        answers(&lent, 0, &[0x05, 0, 0], 0)
    };
    for length in 0..=304 * 3 {
        let due = match length {
            0 => 51,
            912 => 0,
            _ if length % 304 == 0 => 53,
            _ => 8,
        };
        assert_eq!(with(&good.row[..length], &good.array), [due; 2], "{length} bytes");
    }
    assert_eq!(with(&good.row[..608], &good.array[..135_168]), [0, 0]);
    assert_eq!(with(&good.row[..304], &good.array[..4_096]), [0, 0]);
    for bytes in [0, 4_096, 131_072, 139_263] {
        assert_eq!(with(&good.row, &good.array[..bytes]), [53, 53], "{bytes} bytes");
    }
    let one = &good.row[..304];
    for (count, due) in [(1, 0), (8, 0), (9, 51), (16, 51), (256, 51), (257, 51)] {
        assert_eq!(with(&one.repeat(count), &vec![0xFF; 4_096 * count]), [due; 2], "{count} chips");
    }
}

/// Every record counts, the chosen one and those beside it, and each byte of it.
#[test]
fn unsound_neighbours() {
    let good = lent();
    for chip in 0..3 {
        for (byte, value) in [(0, 7), (1, 8), (3, 2), (4, 0), (7, 1), (28, 9), (303, 1)] {
            let mut bad = good.clone();
            bad.row[304 * chip + byte] = value;
            for chosen in 0..3 {
                assert_eq!(answers(&bad, chosen, &[0x05, 0, 0], 0), [6, 6], "{chip}, {byte}");
            }
            assert_eq!(answers(&bad, 3, &[0x05, 0, 0], 0), [52, 6], "{chip}, {byte}");
        }
    }
}

/// The selected record and the response change, and nothing else; bytes of the response behind what is sent stay.
#[test]
fn bytes_that_stay() {
    let mut after = lent();
    calls::bus_wait(&mut after.row, &mut after.array, 9);
    let before = after.clone();
    let (row, array) = (&mut after.row, &mut after.array);
    let reply = calls::bus_transact(row, array, 1, &[0x06], 0, 1, &mut after.response);
    assert_eq!((reply.bits(), &after.response[..]), (0, &[0xFF, 0xC3, 0xC3][..]));
    let changed = (0..after.row.len()).filter(|i| after.row[*i] != before.row[*i]);
    assert_eq!(changed.collect::<Vec<_>>(), [304 + 3]);
    assert!(after.array == before.array);
    let program = [0x02, 0, 0, 0, 0xFF];
    let reply =
        calls::bus_transact(&mut after.row, &mut after.array, 1, &program, 0, 1, &mut [0; 5]);
    assert_eq!((reply.answer(), reply.missing()), (Answer::Executed, 4));
}
