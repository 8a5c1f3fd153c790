//! Worked cases of batches, by hand from the papers, on libm25p.a and on the model beside it:
//! days with every byte that they leave, refused ones, and how long the buffers have to be.

#[path = "support/m25pe40.rs"]
#[allow(dead_code)]
mod cases;
#[path = "support/lines.rs"]
mod lines;
#[path = "support/sweep.rs"]
#[allow(dead_code)]
mod swept;

use cases::{at, holding, Worked};
use lines::{items, FIRST, IGNORED};
use rig::compare::{Call, Filled, Step, SPARE};
use rig::model::{Record, RECORD_BYTES};

/// What stands in the buffers before a batch.
const UNTOUCHED: u8 = 0x55;

/// A batch with buffers of these lengths: the 64 bits, and each buffer in hex up to the last byte that was touched.
fn lent(chip: &mut Worked, items: Vec<u8>, lengths: [usize; 3]) -> (u64, [String; 3]) {
    let filled = lengths.map(|len| Filled { bytes: vec![UNTOUCHED; len + SPARE], len }).into();
    let (record_len, array_len) = (RECORD_BYTES, chip.now().figures().bytes);
    let step = Step { call: Call::Batch { items }, record: None, record_len, array_len, filled };
    let (pair, tally) = (&mut chip.0.pair, &mut chip.0.tally);
    let word = pair.step(&step, tally).unwrap_or_else(|difference| panic!("{difference}")).word();
    let touched = |buffer: &Vec<u8>| {
        let end = buffer.iter().rposition(|byte| *byte != UNTOUCHED).map_or(0, |at| at + 1);
        buffer[..end].iter().map(|byte| format!("{byte:02X}")).collect()
    };
    (word, [0, 1, 2].map(|which| touched(&pair.real.filled[which])))
}

/// A batch that is carried out, with the buffers that always suffice: responses, answers and bits missing.
fn carried_out(chip: &mut Worked, lines: &[&str]) -> [String; 3] {
    let items = items(lines);
    let lengths = [items.len(), items.len() / 3, 8];
    let (word, left) = lent(chip, items, lengths);
    assert_eq!(word, 0);
    left
}

/// Hex with the spaces taken out.
fn hex(lines: &[&str]) -> String {
    lines.concat().replace(' ', "")
}

const NONE_MISSING: &str = "0000000000000000";

#[test]
fn a_first_day() {
    let mut chip = at(Record::standby(0));
    let [responses, answers, missing] = carried_out(&mut chip, &FIRST);
    let heard = ["FF", "FF FFFFFF FF", "FF 03", "FF 01", "FF 00", "FF FFFFFF FF5AFF"];
    assert_eq!(responses, hex(&heard));
    assert_eq!((answers, missing.as_str()), ("00".repeat(8), NONE_MISSING));
    assert_eq!(
        (chip.array([0x0F, 0x10, 0x11]), chip.now()),
        ([0xFF, 0x5A, 0xFF], Record::standby(0))
    );
}

/// What the chip ignores has its number and its FF, and the day goes on behind it.
#[test]
fn ignored_items() {
    let mut chip = at(Record::standby(0));
    let [responses, answers, missing] = carried_out(&mut chip, &IGNORED);
    // neither of the first two and of the waits has a response byte
    let heard =
        ["FF FF FF FF FF FF FF", "FF FF", "FF FFFFFF 0B", "FF", "FF", "FF 03", "FF 01", "FF 00"];
    assert_eq!(responses, hex(&heard));
    assert_eq!(answers, hex(&["0B 0B 0E 0F 0F 0F 10 00 00 0D 00 00 0C 00 00 00 00 00"]));
    assert_eq!((missing.as_str(), chip.now()), (NONE_MISSING, Record::standby(0)));
}

/// BP 1 and SRWD are set, hold against W low and protect sector 3, and are reset with W high.
#[test]
fn settings_and_protection() {
    let mut chip = at(Record::standby(0));
    let [responses, answers, missing] = carried_out(
        &mut chip,
        &[
            "0100 01 06",
            "0200 01 01 84",
            "0400 10 02000000",
            "0200 01 05 00",
            "0100 01 06",
            "0200 00 01 00",
            "0500 01 02 000C00 00",
            "0500 00 02 000BFF 00",
            "0400 10 03000000",
            "0100 01 06",
            "0200 01 01 00",
            "0400 10 01000000",
            "0200 01 05 00",
            "0400 10 01000000",
            "0200 01 05 00",
        ],
    );
    let enabled = ["FF", "FF FF", "FF 84", "FF", "FF FF", "FF FFFFFF FF", "FF FFFFFF FF"];
    let reset = ["FF", "FF FF", "FF 85", "FF 00"];
    assert_eq!(responses, hex(&enabled) + &hex(&reset));
    assert_eq!(answers, hex(&["00 00 00 00 00 12 11 00 00 00 00 00 00 00 00"]));
    assert_eq!((missing.as_str(), chip.array([0xBFF, 0xC00])), (NONE_MISSING, [0x00, 0xFF]));
}

/// 24 bits over zeros, 4 more at the end of the page; nothing for a program that is ignored or over FF.
#[test]
fn bits_missing() {
    let zeros: Vec<(usize, u8)> = (0x100..0x200).map(|place| (place, 0x00)).collect();
    let mut chip = holding(Record::standby(0), &zeros);
    let [responses, answers, missing] = carried_out(
        &mut chip,
        &[
            "0100 01 06",
            "0700 01 02 000100 FFFFFF",
            "0400 10 03000000",
            "0100 01 06",
            "0500 01 02 0001FF A5",
            "0400 10 03000000",
            "0500 01 02 000100 FF",
            "0100 01 06",
            "0500 01 02 000200 FF",
            "0500 01 02 000100 FF",
        ],
    );
    assert_eq!(responses, "FF".repeat(30));
    assert_eq!(answers, hex(&["00 00 00 00 00 00 10 00 00 0C"]));
    assert_eq!(missing, "1C00000000000000");
}

/// A page of zeros is programmed with ones 33 times: 67,584 bits.
#[test]
fn bits_missing_in_many_programs() {
    let zeros: Vec<(usize, u8)> = (0x300..0x400).map(|place| (place, 0x00)).collect();
    let mut chip = holding(Record::standby(0), &zeros);
    let program = format!("0401 01 02 000300 {}", "FF".repeat(256));
    let once = ["0100 01 06", &program, "0400 10 03000000"];
    let [_, answers, missing] = carried_out(&mut chip, &once.repeat(33));
    assert_eq!((answers, missing.as_str()), ("00".repeat(99), "0008010000000000"));
}

/// The M25PE40: a lock, a page write and a subsector erase, where they are locked and where not.
#[test]
fn locks() {
    let mut chip = at(Record::standby(6));
    let [responses, answers, missing] = carried_out(
        &mut chip,
        &[
            "0100 01 06",
            "0500 01 E5 010000 01",
            "0600 01 E8 010000 0000",
            "0500 01 0A 020000 3C",
            "0100 01 06",
            "0500 01 0A 010000 3C",
            "0500 01 0A 020000 3C",
            "0400 10 03000000",
            "0500 01 03 020000 00",
            "0100 01 06",
            "0500 00 E5 010000 03",
            "0100 01 06",
            "0500 01 E5 010000 00",
            "0400 01 20 010000",
            "0400 01 20 020000",
            "0400 10 05000000",
            "0500 01 03 020000 00",
        ],
    );
    let written =
        ["FF", "FFFFFFFFFF", "FFFFFFFF 0101", "FFFFFFFFFF", "FF", "FFFFFFFFFF", "FFFFFFFFFF"];
    let frozen = ["FFFFFFFF 3C", "FF", "FFFFFFFFFF", "FF", "FFFFFFFFFF"];
    let erased = ["FFFFFFFF", "FFFFFFFF", "FFFFFFFF FF"];
    assert_eq!(responses, hex(&written) + &hex(&frozen) + &hex(&erased));
    assert_eq!(answers, hex(&["00 00 00 10 00 11 00 00 00 00 00 00 13 11 00 00 00"]));
    assert_eq!((missing.as_str(), chip.now().locks), (NONE_MISSING, [0, 3, 0, 0, 0, 0, 0, 0]));
}

/// A good day with something bad behind it, or cut in its last item: 9, and nothing has happened.
#[test]
fn bad_items() {
    let low_byte = format!("0401 10 01000000 {}", "00".repeat(256));
    let bad = [
        "00",
        "0000",
        "0100 01",
        "0200 01 05",
        "FFFF 01 03 000000",
        "0000 11",
        "0400 11 01000000",
        "0100 12 06",
        "0100 20 06",
        "0100 80 06",
        "0100 FF 06",
        "0000 10",
        "0300 10 010000",
        "0500 10 0100000000",
        "0400 10 010000",
        "0400 10",
        "0004 10 01000000",
        &low_byte,
    ];
    let mut chip = at(Record::standby(0));
    let before = chip.0.pair.real.array.clone();
    for last in bad {
        let items = items(&[&FIRST[..], &[last]].concat());
        let (word, left) = lent(&mut chip, items, [1_000, 1_000, 8]);
        assert_eq!((word, left), (9, [const { String::new() }; 3]), "{last}");
        assert_eq!((chip.now(), &chip.0.pair.real.array), (Record::standby(0), &before), "{last}");
    }
    carried_out(&mut chip, &FIRST);
    assert_eq!(chip.array([0x10]), [0x5A]);
}

/// A transaction, a wait and a transaction: three response bytes, three answer bytes, eight for the sum.
#[test]
fn room() {
    let short = |chip: &mut Worked, lines: &[&str], lengths| lent(chip, items(lines), lengths);
    let mut chip = at(Record::standby(0));
    let day = ["0100 01 06", "0400 10 00000000", "0200 01 05 00"];
    for lengths in [[2, 3, 8], [3, 2, 8], [3, 3, 7], [0, 3, 8], [3, 0, 8], [3, 3, 0], [2, 2, 7]] {
        let refused = (10, [const { String::new() }; 3]);
        assert_eq!(short(&mut chip, &day, lengths), refused, "{lengths:?}");
        assert_eq!(chip.now(), Record::standby(0));
    }
    let left = |responses: &str, answers: &str| {
        [responses.to_string(), answers.to_string(), NONE_MISSING.to_string()]
    };
    for lengths in [[3, 3, 8], [4, 3, 8], [3, 4, 8], [3, 3, 9], [100, 100, 100]] {
        let mut chip = at(Record::standby(0));
        assert_eq!(short(&mut chip, &day, lengths), (0, left("FFFF02", "000000")), "{lengths:?}");
    }
    assert_eq!(short(&mut chip, &[], [0, 0, 8]), (0, left("", "")));
    assert_eq!(short(&mut chip, &[], [0, 0, 7]).0, 10);
    assert_eq!(short(&mut chip, &day[1..2], [0, 1, 8]), (0, left("", "00")));
    assert_eq!(short(&mut chip, &day[1..2], [4, 0, 8]).0, 10);
    assert_eq!(short(&mut chip, &["0000 01"], [0, 1, 8]), (0, left("", "0B")));
}

/// 8, 6, 2, 9, 10: with everything wrong, and then one thing after the other put right.
#[test]
fn order_of_refusals() {
    let mut chip = at(Record::standby(0));
    let mut unsound = Record::standby(0).pack();
    unsound[5] = 1;
    let sound = Record::standby(0).pack();
    let (bad, good) = (items(&["0100 01 06", "0100 11 06"]), items(&["0100 01 06"]));
    let cases = [
        (unsound, RECORD_BYTES - 1, 4_095, &bad, 0, 8),
        (unsound, RECORD_BYTES, 4_095, &bad, 0, 6),
        (sound, RECORD_BYTES, 4_095, &bad, 0, 2),
        (sound, RECORD_BYTES, 4_096, &bad, 0, 9),
        (sound, RECORD_BYTES, 4_096, &good, 0, 10),
        (sound, RECORD_BYTES, 4_096, &good, 8, 0),
    ];
    for (record, record_len, array_len, items, filled, answer) in cases {
        let call = Call::Batch { items: items.clone() };
        let lent = [record_len, array_len];
        let seen = chip.0.call_filling(Some(record), call, lent, &[filled; 3]);
        assert_eq!(seen.word(), answer);
    }
}
