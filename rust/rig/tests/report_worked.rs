//! Worked cases of reports, by hand from the papers, on libm25p.a and on the model beside it: days with every number
//! that they add, weeks of files, and totals that are nearly full.

#[path = "support/m25pe40.rs"]
#[allow(dead_code)]
mod cases;
#[path = "support/lines.rs"]
mod lines;
#[path = "support/reports.rs"]
#[allow(dead_code)]
mod reports;
#[path = "support/sweep.rs"]
#[allow(dead_code)]
mod swept;

use cases::{at, holding, Worked};
use lines::{items, FIRST, IGNORED};
use reports::{counted, lent, report, NONE};
use rig::compare::Call;
use rig::model::{Record, RECORD_BYTES};
use rig::report_model::NUMBERS;

/// A report of these items on totals that are 0: the numbers that are not 0 behind it.
fn adds(chip: &mut Worked, lines: &[&str]) -> Vec<(usize, u64)> {
    let (word, left) = report(&mut chip.0, None, &items(lines), &NONE);
    assert_eq!(word, 0);
    counted(&left)
}

/// The first bytes of a buffer that was filled, in hex.
fn left(chip: &Worked, buffer: usize, length: usize) -> String {
    let buffer = &chip.0.pair.real.filled[buffer][..length];
    buffer.iter().map(|byte| format!("{byte:02X}")).collect()
}

/// Six transactions and two waits. A byte for each status, and three for the read: FF 5A FF.
#[test]
fn a_first_day() {
    let mut chip = at(Record::standby(0));
    let added = adds(&mut chip, &FIRST);
    assert_eq!(added, [(2, 1), (3, 1), (5, 3), (6, 1), (256, 6), (288, 6), (289, 1)]);
    assert_eq!(left(&chip, 1, 8), "00".repeat(8));
    assert_eq!(left(&chip, 0, 19)[..24], *"FFFFFFFFFFFFFF03FF01FF00");
    assert_eq!(left(&chip, 0, 19)[24..], *"FFFFFFFFFF5AFF");
    assert_eq!((chip.array([0x10]), chip.now()), ([0x5A], Record::standby(0)));
}

/// The totals byte by byte: 64 bits each, the low byte first.
#[test]
fn bytes_of_the_totals() {
    let mut chip = at(Record::standby(0));
    let mut before = NONE;
    (before[6], before[256], before[288]) = (0xFF, 0xFFFF_FFFF, 0x0102_0304_0506_0708);
    assert_eq!(report(&mut chip.0, None, &items(&["0100 01 06", "0300 01 05 0000"]), &before).0, 0);
    let bytes = left(&chip, 2, 2_824);
    let number = |k: usize| &bytes[16 * k..16 * k + 16];
    assert_eq!([number(5), number(6)], ["0100000000000000", "0001000000000000"]);
    assert_eq!([number(256), number(288)], ["0100000001000000", "0A07060504030201"]);
    let others = (0..NUMBERS).filter(|k| ![5, 6, 256, 288].contains(k));
    assert!(others.into_iter().all(|k| number(k) == "0000000000000000"));
}

/// What the chip ignores counts under its number alone; what sends nothing under 11.
#[test]
fn ignored_items() {
    let mut chip = at(Record::standby(0));
    let executed = [(0x05, 3), (0x06, 1), (0xAB, 1), (0xB9, 1), (0xC7, 1)];
    let answers = [(256, 7), (267, 2), (268, 1), (269, 1), (270, 1), (271, 3), (272, 1)];
    // the signature, and three times the status
    assert_eq!(adds(&mut chip, &IGNORED), [&executed[..], &answers, &[(288, 4)]].concat());
}

/// Programs without the latch, in a protected sector, of no byte, and in a cycle count for no sector; one that is not at
/// its end does.
#[test]
fn ignored_programs() {
    let mut chip = at(Record { bp: 1, ..Record::standby(0) });
    let day = [
        "0500 01 02 000000 00",
        "0100 01 06",
        "0500 01 02 000C00 00",
        "0500 01 02 000FFF 00",
        "0400 01 02 000000",
        "0500 03 02 000000 00",
        "0500 01 02 000BFF 00",
        "0500 01 02 000000 00",
    ];
    let answers = [(256, 2), (268, 1), (271, 2), (272, 1), (273, 2)];
    assert_eq!(
        adds(&mut chip, &day),
        [&[(0x02, 1), (0x06, 1)][..], &answers, &[(291, 1)]].concat()
    );
    assert!(chip.now().cycle().is_some());
    // the power is lost in it: it was counted
    chip.loss(0xFF, &[], 0);
    assert_eq!(adds(&mut chip, &["0200 01 05 00"]), [(0x05, 1), (256, 1), (288, 1)]);
    assert_eq!(chip.array([0xBFF]), [0xFF]);
}

/// The M25P10-A, 131,072 bytes in sectors of 32,768: six programs, of which two lie above the part.
#[test]
fn programs_by_sector() {
    let mut chip = at(Record::standby(1));
    let program = |address: &str| format!("0100 01 06 0500 01 02 {address} 00 0400 10 03000000");
    let day = ["000000", "007FFF", "008000", "01FFFF", "020000", "FFFFFF"].map(program);
    let added = adds(&mut chip, &day.each_ref().map(|one| one.as_str()));
    assert_eq!(added, [(2, 6), (6, 6), (256, 12), (289, 3), (290, 1), (292, 2)]);
}

/// Three bytes from the last of sector 0 on: two go to the beginning of its last page, and it counts for sector 0.
#[test]
fn a_program_that_wraps() {
    let mut chip = at(Record::standby(0));
    let day = ["0100 01 06", "0700 01 02 0003FF 010203", "0400 10 03000000"];
    assert_eq!(adds(&mut chip, &day), [(2, 1), (6, 1), (256, 2), (289, 1)]);
    assert_eq!(chip.array([0x3FF, 0x300, 0x301, 0x400]), [0x01, 0x02, 0x03, 0xFF]);
}

/// Eight bits are missing, and neither the answer nor a number tells them.
#[test]
fn bits_missing_are_not_told() {
    let mut chip = holding(Record::standby(0), &[(0x100, 0x00)]);
    let day = ["0100 01 06", "0500 01 02 000100 FF"];
    assert_eq!(adds(&mut chip, &day), [(2, 1), (6, 1), (256, 2), (289, 1)]);
}

/// The M25P128, 16,777,216 bytes in sectors of 262,144: each address is within.
#[test]
fn programs_by_sector_of_the_largest() {
    let mut chip = at(Record::standby(4));
    let program = |address: &str| format!("0100 01 06 0500 01 02 {address} 00 0400 10 03000000");
    let day = ["03FFFF", "040000", "FBFFFF", "FC0000", "FFFFFF"].map(program);
    let added = adds(&mut chip, &day.each_ref().map(|one| one.as_str()));
    assert_eq!(added, [(2, 5), (6, 5), (256, 10), (289, 1), (290, 1), (351, 1), (352, 2)]);
}

/// The M25PE40: a page write is no program, nor are the erases of page, subsector and sector; a program is.
#[test]
fn page_writes() {
    let mut chip = at(Record::standby(6));
    let enable_and = |hex: &str| format!("0100 01 06 {hex} 0400 10 05000000");
    let day = [
        "0500 01 0A 020000 3C",
        "0500 01 02 0A0000 3C",
        "0400 01 DB 020000",
        "0400 01 20 020000",
        "0400 01 D8 020000",
        "0500 01 E5 070000 01",
        "0500 01 0A 070000 3C",
        "0500 01 02 070000 3C",
    ]
    .map(enable_and);
    let added = adds(&mut chip, &day.each_ref().map(|one| one.as_str()));
    let executed = [(0x02, 1), (0x06, 8), (0x0A, 1), (0x20, 1), (0xD8, 1), (0xDB, 1), (0xE5, 1)];
    // 0A0000 lies in sector 2; sector 7 is locked
    assert_eq!(added, [&executed[..], &[(256, 14), (273, 2), (291, 1)]].concat());
}

/// Whatever is driven counts: FF of a blank array, zeros behind the identification, and the signature again and again.
#[test]
fn driven_bytes() {
    let mut chip = holding(Record::standby(0), &[(0x800, 0x00)]);
    let driven = |chip: &mut Worked, hex: &str| {
        let added = adds(chip, &[hex]);
        added.into_iter().find(|(number, _)| *number == 288).map_or(0, |(_, count)| count)
    };
    assert_eq!(driven(&mut chip, "0700 01 03 000000 000000"), 3);
    assert_eq!(driven(&mut chip, "0700 01 0B 000000 000000"), 2);
    assert_eq!(driven(&mut chip, "0600 01 03 0007FF 0000"), 2);
    assert_eq!(driven(&mut chip, "0400 01 03 000000"), 0);
    assert_eq!(driven(&mut chip, "0900 01 9F 0000000000000000"), 8);
    assert_eq!(driven(&mut chip, "0700 0F AB 000000 000000"), 3);
    assert_eq!(driven(&mut chip, "0300 01 05 0000"), 2);
    assert_eq!(driven(&mut chip, "0100 01 05"), 0);
    assert_eq!(driven(&mut chip, "0100 01 06"), 0);
    assert_eq!(driven(&mut chip, "0500 01 99 00000000"), 0);
}

/// Four files of a week, each from the state that the last one left: the second is cut, the third would make a total too
/// large, and neither counts or changes anything.
#[test]
fn a_week() {
    let mut chip = at(Record::standby(0));
    let mut totals = NONE;
    totals[5] = u64::MAX - 2;
    let go_on = |chip: &mut Worked, lines: &[&str], totals: &mut [u64; NUMBERS]| {
        let (word, left) = report(&mut chip.0, None, &items(lines), totals);
        totals.copy_from_slice(&left);
        word
    };
    assert_eq!(go_on(&mut chip, &["0100 01 06", "0500 01 02 000400 0F"], &mut totals), 0);
    let cycle = chip.now();
    assert_eq!(go_on(&mut chip, &["0400 10 03000000", "0200 01 05"], &mut totals), 9);
    let status = ["0400 10 03000000", "0200 01 05 00", "0200 01 05 00", "0200 01 05 00"];
    assert_eq!(go_on(&mut chip, &status, &mut totals), 71);
    assert_eq!((chip.now(), chip.array([0x400])), (cycle, [0xFF]));
    assert_eq!(go_on(&mut chip, &status[..3], &mut totals), 0);
    assert_eq!((chip.now(), chip.array([0x400])), (Record::standby(0), [0x0F]));
    let expected = [(2, 1), (5, u64::MAX), (6, 1), (256, 4), (288, 2), (290, 1)];
    assert_eq!(counted(&totals), expected);
    // the number of the status reads is full, and stays so
    assert_eq!(go_on(&mut chip, &["0200 01 05 00"], &mut totals), 71);
    assert_eq!(go_on(&mut chip, &["0400 10 01000000", "0100 01 06", "0200 03 05"], &mut totals), 9);
    assert_eq!(go_on(&mut chip, &["0100 01 06", "0000 01"], &mut totals), 0);
    let expected = [(2, 1), (5, u64::MAX), (6, 2), (256, 5), (267, 1), (288, 2), (290, 1)];
    assert_eq!(counted(&totals), expected);
}

/// Of a day that adds 6, 6 and 1: just what fits, and one more.
#[test]
fn nearly_full() {
    let added = [(2, 1), (3, 1), (5, 3), (6, 1), (256, 6), (288, 6), (289, 1)];
    for (number, more) in added {
        let mut chip = at(Record::standby(0));
        let mut before = NONE;
        before[number] = u64::MAX - more + 1;
        let refused = report(&mut chip.0, None, &items(&FIRST), &before);
        assert_eq!(refused, (71, before.to_vec()), "number {number}");
        assert_eq!((chip.now(), chip.array([0x10])), (Record::standby(0), [0xFF]));
        before[number] -= 1;
        let (word, sums) = report(&mut chip.0, None, &items(&FIRST), &before);
        assert_eq!((word, sums[number], chip.array([0x10])), (0, u64::MAX, [0x5A]));
    }
    // a number that nothing is added to may be full
    let mut chip = at(Record::standby(0));
    let mut full = [u64::MAX; NUMBERS];
    added.iter().for_each(|(number, _)| full[*number] = 0);
    let (word, sums) = report(&mut chip.0, None, &items(&FIRST), &full);
    let rest = sums.iter().filter(|sum| **sum == u64::MAX).count();
    assert_eq!((word, rest), (0, NUMBERS - added.len()));
    assert!(added.iter().all(|(number, more)| sums[*number] == *more));
}

/// A transaction, a wait and a transaction: three response bytes, three answer bytes, 2,824 for the totals.
#[test]
fn room() {
    let day = items(&["0100 01 06", "0400 10 00000000", "0200 01 05 00"]);
    for lengths in [[2, 3, 2_824], [3, 2, 2_824], [3, 3, 2_823], [3, 3, 0], [3, 3, 8], [0, 0, 0]] {
        let mut chip = at(Record::standby(0));
        let (word, _) = lent(&mut chip.0, None, &day, lengths, &NONE);
        assert_eq!((word, chip.now()), (10, Record::standby(0)), "{lengths:?}");
    }
    for lengths in [[3, 3, 2_824], [3, 3, 2_825], [4, 4, 2_832], [100, 100, 3_000]] {
        let mut chip = at(Record::standby(0));
        let (word, sums) = lent(&mut chip.0, None, &day, lengths, &NONE);
        assert_eq!(word, 0, "{lengths:?}");
        assert_eq!(counted(&sums), [(5, 1), (6, 1), (256, 2), (288, 1)]);
    }
    let mut chip = at(Record::standby(0));
    assert_eq!(lent(&mut chip.0, None, &[], [0, 0, 2_824], &NONE), (0, NONE.to_vec()));
    assert_eq!(lent(&mut chip.0, None, &[], [0, 0, 2_823], &NONE).0, 10);
}

/// 8, 6, 2, 9, 10, 71: with everything wrong, and then one thing after the other put right.
#[test]
fn order_of_refusals() {
    let mut chip = at(Record::standby(0));
    let sound = Record::standby(0).pack();
    let mut unsound = sound;
    unsound[5] = 1;
    let (bad, good) = (items(&["0100 01 06", "0100 11 06"]), items(&["0100 01 06"]));
    let cases = [
        (unsound, RECORD_BYTES - 1, 4_095, &bad, 2_823, 8),
        (unsound, RECORD_BYTES, 4_095, &bad, 2_823, 6),
        (sound, RECORD_BYTES, 4_095, &bad, 2_823, 2),
    ];
    for (record, record_len, array_len, items, filled, answer) in cases {
        let call = Call::Report { items: items.clone() };
        let lent = [record_len, array_len];
        let seen = chip.0.call_filling(Some(record), call, lent, &[filled; 3]);
        assert_eq!(seen.word(), answer);
    }
    let full = [u64::MAX; NUMBERS];
    let mut nearly = full;
    (nearly[6], nearly[256]) = (u64::MAX - 1, 0);
    let cases = [
        (&bad, 2_823, full, 9),
        (&good, 2_823, full, 10),
        (&good, 2_824, full, 71),
        (&good, 2_824, nearly, 0),
    ];
    for (items, length, before, answer) in cases {
        let (word, _) = lent(&mut chip.0, Some(sound), items, [9, 9, length], &before);
        assert_eq!(word, answer);
    }
}
