//! m25p_report against the model on whole ranges: every first byte, every sector of every part, every number around what
//! it can hold, every bit of a carry, every length of a buffer, every choice of refusals, and long reports.

#[path = "support/days.rs"]
mod days;
#[path = "support/reports.rs"]
mod reports;
#[path = "support/sweep.rs"]
#[allow(dead_code)]
mod swept;

use days::{day, sent, wait};
use reports::{counted, lent, report, NONE};
use rig::batch_model::{written, Item};
use rig::compare::{Call, Filled, Step, SPARE};
use rig::model::{Cycle, Mode, Record, PARTS, PP, RDID, RDSR, READ, RECORD_BYTES, SMALL, WREN};
use rig::report_generate::added;
use rig::report_model::{totals, ANSWERS, DRIVEN, EXECUTED};
use rig::report_model::{NUMBERS, PROGRAMS, TOTALS_BYTES};
use swept::{addressed, Sweep};

/// A transaction counts as executed or not, and under one answer; as a program where it is one.
fn counts_once(sweep: &mut Sweep, from: &Record, code: u8, n: usize) {
    let items = written(&[sent(&addressed(code, 0x312, &[0x5A; 2])[..n])]);
    let (word, left) = report(sweep, Some(from.pack()), &items, &NONE);
    let executed = left[usize::from(code)];
    assert_eq!((word, executed), (0, left[ANSWERS.start]), "{code:02X} {n} {from:?}");
    assert_eq!(left[EXECUTED].iter().sum::<u64>(), executed);
    assert_eq!(left[ANSWERS].iter().sum::<u64>(), 1);
    assert_eq!(left[PROGRAMS].iter().sum::<u64>(), left[usize::from(PP)]);
}

/// Every first byte alone and with up to five others, and no byte, in states that differ in what the chip looks at.
#[test]
fn every_first_byte() {
    for part in SMALL.map(|part| part as u8) {
        let mut sweep = Sweep::new(part);
        let standby = Record { latch: true, ..Record::standby(part) };
        let states = [
            standby,
            Record { bp: 3, srwd: true, ..standby },
            Record { latch: false, ..standby },
            standby.busy(2, Cycle::Settings { bp: 2, srwd: true }),
            Record { mode: Mode::Deep, ..standby },
        ];
        let codes = states.iter().flat_map(|from| (0..=255).map(move |code| (from, code)));
        for (from, code) in codes {
            (0..=6).for_each(|n| counts_once(&mut sweep, from, code, n));
        }
        sweep.pair.compare_array().unwrap();
    }
}

/// An executed program of one byte, and its end.
fn program(address: usize) -> [Item; 3] {
    [sent(&[WREN]), sent(&addressed(PP, address, &[0x3C])), wait(3)]
}

/// The first and the last byte of every sector of every part, and some times the part's size above them.
#[test]
fn every_sector() {
    for (number, part) in PARTS.iter().enumerate() {
        let mut sweep = Sweep::new(number as u8);
        let times = (1 << 24) / part.bytes;
        let above: Vec<usize> =
            [0, 1, times / 2, times - 1].into_iter().filter(|k| *k < times).collect();
        let each = (0..part.sectors).map(|sector| sector * part.sector_bytes);
        let places = each.flat_map(|begin| [begin, begin + part.sector_bytes - 1]);
        let programs = places.flat_map(|place| above.iter().map(move |k| place + k * part.bytes));
        let items: Vec<Item> = programs.flat_map(program).collect();
        let (word, left) = report(&mut sweep, None, &written(&items), &NONE);
        assert_eq!(word, 0);
        let programs = (2 * above.len()) as u64;
        let mut expected =
            vec![(2, programs * part.sectors as u64), (6, programs * part.sectors as u64)];
        expected.push((ANSWERS.start, 2 * programs * part.sectors as u64));
        expected.extend((0..part.sectors).map(|sector| (PROGRAMS.start + sector, programs)));
        assert_eq!(counted(&left), expected, "part {number}");
    }
}

/// Each number around what it can hold, in a day that adds to many: one less, just so, one more, and full. The others
/// begin at 0.
#[test]
fn every_number_at_its_limit() {
    for part in [0, 6] {
        let mut sweep = Sweep::new(part);
        let (items, from) = (written(&day(part)), Record::standby(part));
        let added = added(from, &items);
        assert!(counted(&added).len() > 15, "{:?}", counted(&added));
        for at in 0..NUMBERS {
            let most = u64::MAX - added[at];
            for total in [most - 1, most, most.saturating_add(1), u64::MAX] {
                let mut before = NONE;
                before[at] = total;
                let contents = sweep.rng.bytes(1_024);
                sweep.put(0x80, &contents);
                let (word, left) = report(&mut sweep, Some(from.pack()), &items, &before);
                assert_eq!(word, if total > most { 71 } else { 0 }, "{total} in number {at}");
                let sum = |k: usize| before[k] + if word == 0 { added[k] } else { 0 };
                assert!((0..NUMBERS).all(|k| left[k] == sum(k)), "{total} in number {at}");
            }
        }
    }
}

/// Each total below each power of two, and its sum above: a carry through every bit.
#[test]
fn every_carry() {
    let mut sweep = Sweep::new(6);
    let (items, from) = (written(&day(6)), Record::standby(6));
    let added = added(from, &items);
    for bit in 0..64 {
        let below = |added: &u64| (1_u64 << bit).saturating_sub(added.div_ceil(2));
        let before: Vec<u64> = added.iter().map(below).collect();
        let (word, left) = report(&mut sweep, Some(from.pack()), &items, &before);
        let sums = before.iter().zip(&added).map(|(total, added)| total + added);
        assert!(word == 0 && left.into_iter().eq(sums), "bit {bit}");
    }
}

/// Full totals take a report without transactions, and no other.
#[test]
fn every_number_full() {
    let mut sweep = Sweep::new(0);
    let full = [u64::MAX; NUMBERS];
    for items in [vec![], vec![wait(0)], vec![wait(3), wait(u32::MAX), wait(1)]] {
        let busy = Record::standby(0).busy(2, Cycle::SectorErase { address: 0x400 });
        for from in [Record::standby(0), busy] {
            let (word, left) = report(&mut sweep, Some(from.pack()), &written(&items), &full);
            assert_eq!((word, &left[..]), (0, &full[..]));
        }
    }
    for one in [vec![], vec![0x00], vec![WREN], vec![RDSR, 0]] {
        let (word, left) = report(&mut sweep, None, &written(&[sent(&one)]), &full);
        assert_eq!((word, &left[..]), (71, &full[..]));
    }
}

/// Totals of each length up to a few bytes more than needed, and all three buffers around what is needed.
#[test]
fn every_length_of_a_buffer() {
    let mut sweep = Sweep::new(0);
    let (items, from) = (written(&day(0)), Record::standby(0).pack());
    let room = Call::Report { items: items.clone() }.room();
    assert_eq!(room[1..], [day(0).len(), 2_824]);
    let mut try_out = |lengths: [usize; 3]| {
        let enough = lengths.iter().zip(&room).all(|(length, needed)| length >= needed);
        let (word, _) = lent(&mut sweep, Some(from), &items, lengths, &[7; NUMBERS + 4]);
        assert_eq!(word, if enough { 0 } else { 10 }, "{lengths:?} for {room:?}");
    };
    for which in 0..3 {
        for length in 0..room[which] + 20 {
            let mut lengths = [room[0], room[1], room[2]];
            lengths[which] = length;
            try_out(lengths);
        }
    }
    for code in 0..27 {
        try_out([room[0] + code % 3 - 1, room[1] + code / 3 % 3 - 1, room[2] + code / 9 - 1]);
    }
    try_out([items.len(), items.len() / 3, TOTALS_BYTES]);
}

/// Every choice of the six reasons to refuse a report; of 10 each of the three buffers.
#[test]
fn every_choice_of_refusals() {
    let order = [8, 6, 2, 9, 10, 71];
    let mut sweep = Sweep::new(0);
    for (choice, short) in (0..1 << 6).flat_map(|choice| (0..3).map(move |short| (choice, short))) {
        let is =
            |number: u8| choice >> order.iter().position(|one| *one == number).unwrap() & 1 == 1;
        let mut record = Record::standby(0).pack();
        record[5] = u8::from(is(6));
        let mut items = written(&program(0x123));
        let room = Call::Report { items: items.clone() }.room();
        items.extend(if is(9) { &[0, 0, 17][..] } else { &[] });
        let mut before = [5; NUMBERS];
        before[ANSWERS.start] = u64::MAX - if is(71) { 1 } else { 2 };
        let mut filled: Vec<Filled> =
            room.iter().map(|len| Filled { bytes: vec![0x77; len + SPARE], len: *len }).collect();
        filled[2].bytes[..TOTALS_BYTES].copy_from_slice(&totals(&before));
        filled[short].len -= usize::from(is(10));
        let record_len = RECORD_BYTES - usize::from(is(8));
        let array_len = 4_096 + usize::from(is(2));
        let step = Step {
            call: Call::Report { items },
            record: Some(record),
            record_len,
            array_len,
            filled,
        };
        let seen = sweep.pair.step(&step, &mut sweep.tally).unwrap();
        let first = order.into_iter().find(|number| is(*number)).unwrap_or(0);
        assert_eq!(seen.word(), u64::from(first), "{choice:06b}");
    }
}

/// More than 65,536 items, and more than 65,536 driven bytes: all are counted, none where the last one is bad.
#[test]
fn long_reports() {
    let mut sweep = Sweep::new(0);
    let from = Some(Record::standby(0).pack());
    let some = [sent(&[]), sent(&[WREN]), wait(1), sent(&[RDSR, 0, 0]), wait(0), sent(&[0x00])];
    let many = written(&some).repeat(12_000);
    let long = written(&[sent(&addressed(READ, 0x123, &[0; 60_000])), wait(7)]).repeat(10);
    let of_many =
        vec![(5, 12_000), (6, 12_000), (256, 24_000), (267, 12_000), (270, 12_000), (288, 24_000)];
    let of_long = vec![(3, 10), (256, 10), (288, 600_000)];
    for (items, expected) in [(many, of_many), (long, of_long)] {
        let (word, left) = report(&mut sweep, from, &items, &NONE);
        assert_eq!((word, counted(&left)), (0, expected));
        assert_eq!(report(&mut sweep, from, &items[..items.len() - 1], &NONE), (9, NONE.to_vec()));
        let bad = [&items[..], &[0, 0, 17]].concat();
        assert_eq!(report(&mut sweep, from, &bad, &NONE), (9, NONE.to_vec()));
        let mut before = NONE;
        before[DRIVEN.start] = u64::MAX - left[DRIVEN.start] + 1;
        assert_eq!(report(&mut sweep, from, &items, &before), (71, before.to_vec()));
    }
}

/// What each part identifies with, and no more: three bytes and then zeros are driven, of the older part none.
#[test]
fn every_identification() {
    for (number, part) in PARTS.iter().enumerate() {
        let mut sweep = Sweep::new(number as u8);
        let (word, left) =
            report(&mut sweep, None, &written(&[sent(&[RDID, 0, 0, 0, 0, 0])]), &NONE);
        let known = vec![(0x9F, 1), (256, 1), (288, 5)];
        let expected = if part.identification.is_some() { known } else { vec![(270, 1)] };
        assert_eq!((word, counted(&left)), (0, expected), "part {number}");
    }
}
