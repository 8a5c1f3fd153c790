//! The model on the worked cases K1 to K15, on bits missing and on the older M25P10-A; and the bench model on the
//! worked example. Cycles and power losses are in `model_cycles.rs`.

#[path = "support/worked.rs"]
mod cases;

use cases::{case, worked};
use rig::bench_model::{self, Line};
use rig::model::{Cycle, Mode, Outcome, Record};

#[test]
fn k1_no_bytes() {
    assert_eq!(case(worked()).answer(&[]), 11);
}

#[test]
fn k2_write_enable() {
    let start = Record { latch: false, ..worked() };
    let mut chip = case(start);
    assert_eq!(chip.run(&[0x06], 1, 1).answer, 15);
    assert_eq!(chip.now(), start);
    assert_eq!(chip.answer(&[0x06]), 0);
    assert!(chip.now().latch);
}

#[test]
fn k3_latch_needed() {
    let mut chip = case(Record { latch: false, ..worked() });
    assert_eq!(chip.answer(&[0x02, 0x00, 0x00, 0x10, 0x00]), 16);
}

#[test]
fn k4_program_clears_bits() {
    let mut chip = case(worked());
    chip.array[7] = 0xF0;
    assert_eq!(chip.answer(&[0x02, 0, 0, 7, 0xAA]), 0);
    for left in [3, 2, 1] {
        assert_eq!(chip.array[7], 0xF0, "{left} ticks left");
        chip.wait(1);
    }
    assert_eq!(chip.array[7], 0xA0);
}

#[test]
fn k5_last_byte_wins() {
    let mut chip = case(worked());
    let mut sent = vec![0x02, 0, 0, 0, 0x11];
    sent.extend([0xFF; 255]);
    sent.push(0x22);
    assert_eq!(chip.answer(&sent), 0);
    chip.wait(3);
    assert_eq!(chip.array[0], 0x22);
    assert!(chip.array[1..].iter().all(|byte| *byte == 0xFF));
}

#[test]
fn k6_read_rolls_over() {
    let mut chip = case(worked());
    (chip.array[4_095], chip.array[0]) = (0x12, 0x34);
    let outcome = chip.run(&[0x03, 0x00, 0x0F, 0xFF, 0, 0], 0, 1);
    assert_eq!(outcome, Outcome { answer: 0, first: 4, count: 2, missing: 0 });
    assert_eq!(chip.response, [0xFF, 0xFF, 0xFF, 0xFF, 0x12, 0x34]);
}

#[test]
fn k7_protected_program() {
    let start = Record { bp: 1, ..worked() };
    assert_eq!(case(start).answer(&[0x02, 0x00, 0x0B, 0xFF, 0x00]), 0);
    assert_eq!(case(start).answer(&[0x02, 0x00, 0x0C, 0x00, 0x00]), 17);
}

#[test]
fn k8_protected_bulk_erase() {
    assert_eq!(case(Record { bp: 1, ..worked() }).answer(&[0xC7]), 17);
}

#[test]
fn k9_frozen_status() {
    let start = Record { srwd: true, ..worked() };
    assert_eq!(case(start).run(&[0x01, 0x00], 0, 0).answer, 18);
    assert_eq!(case(start).run(&[0x01, 0x00], 0, 1).answer, 0);
}

#[test]
fn k10_status_write() {
    let mut chip = case(worked());
    assert_eq!(chip.answer(&[0x01, 0xFF]), 0);
    for status in [0x03, 0x01, 0x8C] {
        assert_eq!(chip.status(), status);
        chip.wait(1);
    }
}

#[test]
fn k11_wrong_form() {
    assert_eq!(case(worked()).answer(&[0x02, 0, 0, 0]), 15);
    assert_eq!(case(worked()).answer(&[0xD8, 0, 0, 0, 0]), 15);
}

#[test]
fn k12_latch_falls_before_busy() {
    let mut chip = case(worked());
    assert_eq!(chip.answer(&[0x02, 0, 0, 0, 0]), 0);
    for status in [0x03, 0x01, 0x00] {
        chip.wait(1);
        assert_eq!(chip.status(), status);
    }
}

#[test]
fn k13_deep_power_down() {
    let mut chip = case(Record { mode: Mode::Deep, ..worked() });
    assert_eq!(chip.answer(&[0x05, 0x00]), 13);
    assert_eq!(chip.answer(&[0xAB]), 0);
    assert_eq!(chip.now().mode, Mode::Standby);
}

#[test]
fn k14_no_signature() {
    assert_eq!(case(Record { part: 4, ..worked() }).answer(&[0xAB]), 14);
}

#[test]
fn k15_latch_before_protection() {
    let mut chip = case(Record { latch: false, bp: 3, ..worked() });
    assert_eq!(chip.answer(&[0xD8, 0, 0, 0]), 16);
}

/// The bits missing for a program from this place on, in a page of 00.
fn missing_over_zeros(at: u8, data: &[u8]) -> u32 {
    let mut chip = case(worked());
    chip.array[..256].fill(0x00);
    let outcome = chip.run(&[&[0x02, 0, 0, at], data].concat(), 0, 1);
    assert_eq!(outcome, Outcome { missing: outcome.missing, ..Outcome::only(0) });
    assert_eq!(outcome.word(), u64::from(outcome.missing) << 48);
    outcome.missing
}

#[test]
fn missing_where_data_went() {
    assert_eq!(missing_over_zeros(7, &[0xFF; 3]), 24);
    assert_eq!(missing_over_zeros(7, &[0x00; 3]), 0);
    assert_eq!(missing_over_zeros(0xFF, &[0x80, 0x03]), 3, "on to the page's beginning");
    assert_eq!(missing_over_zeros(3, &[0xFF; 256]), 2_048, "all of the page");
    let replaced = [[0xFF; 256], [0x00; 256]].concat();
    assert_eq!(missing_over_zeros(3, &replaced), 0, "only the last byte of a slot counts");
    assert_eq!(missing_over_zeros(3, &replaced[1..300]), 8 * 212);
}

#[test]
fn missing_ones_over_zeros() {
    for (before, byte, missing) in
        [(0xF0, 0xAA, 2), (0xAA, 0xF0, 2), (0x0F, 0x0E, 0), (0x00, 0xFF, 8), (0xFF, 0x00, 0)]
    {
        let mut chip = case(worked());
        chip.array[7] = before;
        assert_eq!(chip.run(&[0x02, 0, 0, 7, byte], 0, 1).missing, missing);
        chip.wait(3);
        assert_eq!(chip.array[7], before & byte);
    }
}

/// What is not an executed program has no bits missing.
#[test]
fn missing_of_nothing_else() {
    let protected = Record { bp: 3, ..worked() };
    let reset = Record { latch: false, ..worked() };
    let busy = worked().busy(2, Cycle::BulkErase);
    let deep = Record { mode: Mode::Deep, ..worked() };
    let run_over_zeros = |record: Record, sent: &[u8], pulses: u32| {
        let mut chip = case(record);
        chip.array.fill(0x00);
        chip.run(sent, pulses, 1)
    };
    let program = [0x02, 0, 0, 0, 0xFF];
    for (record, answer) in [(protected, 17), (reset, 16), (busy, 12), (deep, 13)] {
        assert_eq!(run_over_zeros(record, &program, 0), Outcome::only(answer));
    }
    assert_eq!(run_over_zeros(worked(), &program, 1), Outcome::only(15), "a further pulse");
    assert_eq!(run_over_zeros(worked(), &program[..4], 0), Outcome::only(15), "no data");
    let read = [0x03, 0, 0, 0, 0xFF];
    for sent in [&[0xD8, 0, 0, 0][..], &[0xC7], &[0x01, 0xFF], &[0x06], &[0x05, 0xFF], &read] {
        let outcome = run_over_zeros(worked(), sent, 0);
        assert_eq!((outcome.answer, outcome.missing), (0, 0), "{sent:02X?}");
    }
}

/// 9F gives 14 and drives nothing, whatever the mode; RES drives 10, and releases from deep power-down.
#[test]
fn older_m25p10a() {
    let standby = Record { latch: true, ..Record::standby(5) };
    let busy = standby.busy(3, Cycle::BulkErase);
    let deep = Record { mode: Mode::Deep, ..standby };
    for record in [standby, busy, deep] {
        let mut chip = case(record);
        assert_eq!(chip.answer(&[0x9F, 0, 0, 0]), 14);
        assert_eq!((chip.response.as_slice(), chip.now()), (&[0xFF; 4][..], record));
    }
    assert_eq!(case(busy).answer(&[0xAB]), 12);
    for record in [standby, deep] {
        let mut chip = case(record);
        let outcome = chip.run(&[0xAB, 0, 0, 0, 0], 0, 1);
        assert_eq!((outcome.answer, outcome.first, outcome.count), (0, 4, 1));
        assert_eq!((chip.response[4], chip.now()), (0x10, standby));
    }
}

#[test]
fn bench_example() {
    let input = include_bytes!("../../../examples/first.txt");
    let output =
        "n ans q\n1 0 FF00000C\n2 0 FF\n3 0 FFFFFFFFFFFF\n4 0 FF03\n5 12 FFFFFFFF\n6 0 -\n\
                  7 0 FFFFFFFFFF5AFFFF\n8 0 FFFFFFFFF0\nend 8\n";
    assert_eq!(bench_model::output(input), output);
}

#[test]
fn bench_lines() {
    let parse = |line: &str| bench_model::parse(line.as_bytes());
    let sent = vec![0x0B, 0xAB];
    assert_eq!(parse("x 0 7 0bAb"), Some(Line::Transaction { w: 0, pulses: 7, sent }));
    let none = Line::Transaction { w: 1, pulses: 0, sent: vec![] };
    assert_eq!(parse("x 1 0"), Some(none));
    assert_eq!(parse("w 0004294967295"), Some(Line::Wait(u32::MAX)));
    assert_eq!(parse("p"), Some(Line::PowerUp));
    for line in
        ["", " ", "x 1 0 ", "x 1 0 0", "x 2 0 06", "x 1 8 06", "x  1 0 06", "X 1 0 06", "p "]
    {
        assert_eq!(parse(line), None, "{line}");
    }
    for line in ["w", "w ", "w 4294967296", "w +1", "w -1", "x 1 0 06\r", "x 01 0 06", "w 1\0"] {
        assert_eq!(parse(line), None, "{line}");
    }
    let longest = format!("x 1 0 {}", "00".repeat(297));
    assert_eq!(longest.len(), bench_model::MOST_CHARACTERS);
    assert!(parse(&longest).is_some());
    assert_eq!(parse(&format!("w {}1", "0".repeat(598))), None);
    assert_eq!(parse(&format!("w {}1", "0".repeat(597))), Some(Line::Wait(1)));
    assert_eq!(bench_model::output(b""), "n ans q\nend 0\n");
    assert_eq!(bench_model::output(b"\np"), "n ans q\n1 90 -\n2 0 -\nend 2\n");
}
