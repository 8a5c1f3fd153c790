//! A bus on whole ranges: every choice of refusals, chip number, length of row and array, place and byte of a record
//! that is not sound, order of parts and tick; and the largest parts.

#[path = "support/buses.rs"]
mod buses;

use buses::{sent, Sweep};
use m25p::calls;
use rig::compare::bus::{episode, Buses, Call};
use rig::faults;
use rig::model::{Cycle, Mode, Packed, Paper, Record, PARTS, PP, RDID, RDSR, READ, RECORD_BYTES};
use rig::model::{SMALL, WREN};
use rig::rng::Rng;

const BENCH: usize = 4_096;

/// So many bench parts in standby.
fn bench(chips: usize) -> Vec<Record> {
    vec![Record::standby(0); chips]
}

/// A code, a 24-bit address and data.
fn addressed(code: u8, address: usize, data: &[u8]) -> Vec<u8> {
    let mut sent = vec![code, (address >> 16) as u8, (address >> 8) as u8, address as u8];
    sent.extend(data);
    sent
}

/// A record that is not sound.
fn unsound() -> Packed {
    let mut record = Record::standby(0).pack();
    record[5] = 1;
    record
}

/// Which of the reasons to refuse a call there are, and the first of them in their order.
fn refusals(order: &[u8], choice: usize) -> (Vec<u8>, u8) {
    let there = order.iter().enumerate().filter(|(k, _)| choice >> k & 1 == 1);
    let there: Vec<u8> = there.map(|(_, number)| *number).collect();
    let first = there.first().copied().unwrap_or(0);
    (there, first)
}

/// The lengths of row and array for so many bench parts, each right unless it is to be refused.
fn lengths(chips: usize, there: &[u8]) -> [usize; 2] {
    let wrong = |number: u8| usize::from(there.contains(&number));
    [chips * RECORD_BYTES + wrong(8), chips * BENCH - wrong(53)]
}

/// Every choice of the eight reasons to refuse a transaction.
#[test]
fn every_choice_of_refusals() {
    let mut sweep = Sweep::new(&bench(10));
    for choice in 0..1 << 8 {
        let (there, first) = refusals(&[8, 51, 52, 6, 53, 3, 4, 5], choice);
        let is = |number: u8| there.contains(&number);
        let chips = if is(51) { 9 } else { 3 };
        let chip = if is(52) { chips as u32 } else { 2 };
        let mut sent = sweep.rng.bytes(if is(3) { 65_537 } else { 2 });
        sent[0] = RDSR;
        let response = sent.len() - usize::from(is(5));
        let records = if is(6) { vec![(1, unsound())] } else { vec![] };
        let call = Call::Transact { chip, sent, pulses: if is(4) { 8 } else { 7 }, w: 0 };
        let word = sweep.call_filling(records, call, lengths(chips, &there), response);
        assert_eq!(word as u8, first, "{there:?}");
    }
}

/// Every choice of the four to refuse a wait.
#[test]
fn every_choice_of_refusals_of_a_wait() {
    let mut sweep = Sweep::new(&bench(10));
    for choice in 0..1 << 4 {
        let (there, first) = refusals(&[8, 51, 6, 53], choice);
        let chips = if there.contains(&51) { 9 } else { 8 };
        let records = if there.contains(&6) { vec![(7, unsound())] } else { vec![] };
        let word = sweep.call_lent(records, Call::Wait(1), lengths(chips, &there));
        assert_eq!(word, u64::from(first), "{there:?}");
    }
}

/// Numbers to 70,000, and each with one or two of the high bits.
#[test]
fn every_chip_number() {
    let wide = (8..32).flat_map(|bit| (8..=bit).map(move |other| 1_u32 << bit | 1 << other));
    let wide = wide.flat_map(|bits| (0..9).map(move |chip| bits | chip));
    let numbers: Vec<u32> = (0..70_000).chain(wide).chain([u32::MAX]).collect();
    for chips in [1, 3, 8] {
        let mut row = Record::standby(0).pack().repeat(chips);
        let mut array = Rng::new(chips as u64).bytes(chips * BENCH);
        let before = (row.clone(), array.clone());
        for number in &numbers {
            let mut response = [0x55; 2];
            let reply =
                calls::bus_transact(&mut row, &mut array, *number, &[RDID, 0], 0, 1, &mut response);
            let there = (*number as usize) < chips;
            // the first byte of the identification is driven
            let expected = if there { (1 << 16 | 1 << 8, [0xFF, 0x00]) } else { (52, [0x55; 2]) };
            assert_eq!((reply.bits(), response), expected, "{number} of {chips}");
        }
        assert!((row, array) == before);
    }
}

/// Rows to ten records, each with the array that its whole records need.
#[test]
fn every_length_of_a_row() {
    let mut sweep = Sweep::new(&bench(10));
    for length in 0..=10 * RECORD_BYTES {
        let chips = length / RECORD_BYTES;
        let number = match chips {
            _ if length % RECORD_BYTES != 0 => 8,
            1..=8 => 0,
            _ => 51,
        };
        let lengths = [length, chips * BENCH];
        assert_eq!(sweep.call_lent(vec![], Call::Wait(1), lengths), number, "{length}");
        let word = sweep.call_lent(vec![], sent(0, &[RDSR, 0]), lengths);
        assert_eq!(word & 0xFF, number, "{length}");
    }
}

/// Arrays for one to three bench parts, of each length to some bytes more.
#[test]
fn every_length_of_an_array() {
    let mut sweep = Sweep::new(&bench(4));
    for chips in 1..=3 {
        for length in 0..=chips * BENCH + 100 {
            let number = if length == chips * BENCH { 0 } else { 53 };
            let lengths = [chips * RECORD_BYTES, length];
            let word = sweep.call_lent(vec![], sent(chips as u32 - 1, &[RDSR, 0]), lengths);
            assert_eq!(word & 0xFF, number, "{length} for {chips}");
            assert_eq!(sweep.call_lent(vec![], Call::Wait(0), lengths), number, "{length}");
        }
    }
}

/// A record that is not sound in each place of each row, whichever chip is chosen; behind the row it does not matter.
#[test]
fn every_unsound_place() {
    let mut sweep = Sweep::new(&bench(9));
    for chips in 1..=8 {
        let lengths = [chips * RECORD_BYTES, chips * BENCH];
        for place in 0..=chips {
            let number = if place < chips { 6 } else { 0 };
            let record = || vec![(place, unsound())];
            assert_eq!(sweep.call_lent(record(), Call::Wait(1), lengths), number);
            for chip in 0..chips {
                let word = sweep.call_lent(record(), sent(chip as u32, &[WREN]), lengths);
                assert_eq!(word, number, "{place} and {chip} of {chips}");
            }
        }
    }
}

/// Each byte of a record with each of some changes, in each of three places: library and model agree on whether it is
/// sound, for a transaction of any of the three and for a wait.
#[test]
fn every_byte_of_a_record() {
    let busy =
        Record::standby(6).busy(3, Cycle::PageWrite { address: 9, slots: [0; 256], named: 7 });
    let records = [Record::standby(0), busy, Record { bp: 3, ..Record::standby(0) }];
    let lengths = [3 * RECORD_BYTES, 2 * BENCH + PARTS[6].bytes];
    let mut sweep = Sweep::new(&records);
    let (mut good, mut bad) = (0, 0);
    for (place, record) in records.iter().enumerate() {
        for at in 0..RECORD_BYTES {
            for change in [0x01, 0x80] {
                let mut record = record.pack();
                record[at] ^= change;
                let record = vec![(place, record)];
                let chip = (place + at) as u32 % 3;
                let answer = sweep.call_lent(record.clone(), sent(chip, &[RDSR]), lengths);
                let waited = sweep.call_lent(record, Call::Wait(0), lengths);
                assert_eq!(answer as u8, waited as u8);
                (good, bad) = (good + u32::from(waited == 0), bad + u32::from(waited == 6));
            }
        }
    }
    assert!(good > 500 && bad > 500, "{good} sound, {bad} not");
}

/// Each three of the small parts: what is programmed and read is at the chip's own place.
#[test]
fn every_order_of_parts() {
    for choice in 0..SMALL.len().pow(3) {
        let parts = [0, 1, 2].map(|k| SMALL[choice / SMALL.len().pow(k) % SMALL.len()]);
        let mut sweep = Sweep::new(&parts.map(|part| Record::standby(part as u8)));
        for (place, part) in parts.into_iter().enumerate() {
            let (chip, last) = (place as u32, PARTS[part].bytes - 1);
            let mut expected = [0, 1, 2].map(|other| sweep.bytes(other).to_vec());
            expected[place][last] = 0x00;
            assert_eq!(sweep.call(sent(chip, &[WREN])), 0);
            assert_eq!(sweep.call(sent(chip, &addressed(PP, last, &[0x00]))), 0);
            assert_eq!(sweep.call(Call::Wait(3)), 0);
            assert!((0..3).all(|other| sweep.bytes(other) == expected[other]), "{parts:?}");
            let read = addressed(READ, last, &[0; 2]);
            assert_eq!(sweep.call(sent(chip, &read)), 2 << 16 | 4 << 8);
            assert_eq!(sweep.response(6)[4..], [0x00, expected[place][0]], "{parts:?}");
        }
    }
}

/// Eight chips whose cycles end one tick after the other, waited for at once and tick by tick.
#[test]
fn every_tick() {
    let erase = |left: u32| Record::standby(0).busy(left, Cycle::SectorErase { address: 0 });
    let start: Vec<Record> = (1..=8).map(erase).collect();
    for (first, step) in (0..10).flat_map(|first| (0..10).map(move |step| (first, step))) {
        let mut sweep = Sweep::new(&start);
        (0..8).for_each(|place| sweep.put(place, &[0x00; BENCH]));
        let mut passed = 0;
        for ticks in [first, step, step] {
            assert_eq!(sweep.call(Call::Wait(ticks)), 0);
            passed += ticks;
            for (place, record) in sweep.pair.records().into_iter().enumerate() {
                let left = (place as u32 + 1).saturating_sub(passed);
                let now = match record.mode {
                    Mode::Busy(left, _) => left,
                    _ => 0,
                };
                assert_eq!((now, record.latch), (left, left > 1), "{place} after {passed}");
                let erased = if left == 0 { 0xFF } else { 0x00 };
                assert!(sweep.bytes(place)[..1_024].iter().all(|byte| *byte == erased));
                assert!(sweep.bytes(place)[1_024..].iter().all(|byte| *byte == 0x00));
            }
        }
    }
}

/// Two of the largest parts and six small ones, with random calls. Faults that show there alone are seen.
#[test]
fn two_of_the_largest() {
    let row = [0, 4, 6, 1, 4, 0, 5, 0];
    let mut tally = Buses::default();
    episode(&row, 150, 7, &Paper, &mut tally).unwrap();
    for (name, fault) in faults::LARGE_BUS {
        assert!(episode(&row, 100, 8, *fault, &mut tally).is_err(), "{name} was not seen");
    }
}

/// Eight of the largest: 134,217,728 bytes, of which the last are the last chip's.
#[test]
fn eight_of_the_largest() {
    let (bytes, mut row) = (PARTS[4].bytes, Record::standby(4).pack().repeat(8));
    let mut array = vec![0x0F; 8 * bytes];
    let ask = |row: &mut [u8], array: &mut [u8], chip: u32, sent: &[u8]| {
        let mut response = vec![0x55; sent.len()];
        let word = calls::bus_transact(row, array, chip, sent, 0, 1, &mut response).bits();
        (word, response)
    };
    for chip in [7, 3] {
        assert_eq!(ask(&mut row, &mut array, chip, &[WREN]).0, 0);
        let program = addressed(PP, bytes - 1, &[0x33]);
        assert_eq!(ask(&mut row, &mut array, chip, &program).0, 2 << 48);
    }
    // short by a byte, by a part, and by all but one
    for short in [1, bytes, 7 * bytes] {
        assert_eq!(ask(&mut row, &mut array[short..], 7, &[RDSR]).0, 53);
        assert_eq!(calls::bus_wait(&mut row, &mut array[short..], 3).bits(), 53);
    }
    assert_eq!(calls::bus_wait(&mut row, &mut array, 3).bits(), 0);
    for chip in 0..8 {
        let last = if matches!(chip, 3 | 7) { 0x03 } else { 0x0F };
        let (word, response) =
            ask(&mut row, &mut array, chip, &addressed(READ, bytes - 1, &[0, 0]));
        assert_eq!((word, &response[4..]), (2 << 16 | 4 << 8, &[last, 0x0F][..]));
        assert_eq!(array[(chip as usize + 1) * bytes - 1], last);
    }
    assert_eq!(array.iter().filter(|byte| **byte != 0x0F).count(), 2);
}
