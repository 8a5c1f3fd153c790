//! Worked cases of the M25PE40, by hand from its sheet and the wish, on libm25p.a and on the model beside it: each new
//! instruction executed and refused, named bytes, locks, power, and the packing.

#[path = "support/m25pe40.rs"]
mod cases;
#[path = "support/sweep.rs"]
#[allow(dead_code)]
mod swept;

use cases::{apart, at, bytes, driven, holding, lock, locked, standby};
use rig::compare::Call;
use rig::model::{Cycle, Mode, Record, RECORD_BYTES};
use rig::probe::{Probe, SpiMode};

#[test]
fn identification_and_codes() {
    let mut chip = at(standby());
    let heard = chip.heard("9F000000000000", 0);
    assert_eq!(heard, ("FF208013000000".to_string(), driven(1, 6)));
    assert_eq!((chip.sent("9E00"), chip.sent("9000"), chip.status()), (14, 14, 0x02));
    for part in 0..6 {
        let mut chip = at(Record { latch: true, ..Record::standby(part) });
        for hex in ["0A00000000", "DB000000", "20000000", "E800000000", "E500000000"] {
            assert_eq!(chip.sent(hex), 14, "part {part}, {hex}");
        }
    }
}

/// AB is a release and nothing more: alone, and without further pulses.
#[test]
fn release() {
    let mut chip = at(standby());
    assert_eq!(chip.heard("AB", 0), ("FF".to_string(), 0));
    assert_eq!((chip.sent("AB00"), chip.sent("AB00000000"), chip.pulsed("AB", 1)), (15, 15, 15));
    assert_eq!((chip.now(), chip.sent("B9")), (standby(), 0));
    let deep = Record { mode: Mode::Deep, ..standby() };
    for hex in ["0500", "B9", "E800000000", "0A00000055", "E500000001", "DB000000", "20000000"] {
        assert_eq!(chip.sent(hex), 13, "{hex}");
    }
    assert_eq!((chip.sent("AB00"), chip.pulsed("AB", 1), chip.now()), (15, 15, deep));
    assert_eq!((chip.sent("AB"), chip.now()), (0, standby()), "the latch is kept");
}

#[test]
fn settings() {
    let mut chip = at(standby());
    assert_eq!((chip.sent("01FF"), chip.status()), (0, 0x03));
    assert_eq!((chip.wait(1).status(), chip.wait(1).status()), (0x01, 0x9C));
    assert_eq!(at(locked([3; 8])).sent("0100"), 0, "locks do not stop it");
    let mut chip = at(Record { srwd: true, ..standby() });
    assert_eq!(chip.transact(&[0x01, 0x00], 0, 0).answer(), 18);
}

/// Named bytes become what was sent, both ways; the rest of the page stays, and no bit is missing.
#[test]
fn page_write() {
    let around = [(0x0F, 0x3C), (0x10, 0xF0), (0x12, 0x3C)];
    let mut chip = holding(standby(), &around);
    assert_eq!(chip.transact(&bytes("0A0000100FA5"), 0, 1).word(), 0);
    assert_eq!((chip.status(), chip.wait(1).status(), chip.wait(1).status()), (0x03, 0x03, 0x01));
    assert_eq!(chip.array([0x10]), [0xF0]);
    assert_eq!(chip.wait(1).status(), 0x00);
    assert_eq!(chip.array([0x0F, 0x10, 0x11, 0x12]), [0x3C, 0x0F, 0xA5, 0x3C]);
    let mut chip = holding(standby(), &around);
    assert_eq!(chip.transact(&bytes("020000100FA5"), 0, 1).word(), 4 << 48, "a program");
    assert_eq!(chip.wait(3).array([0x10, 0x11]), [0x00, 0xA5]);
    let mut chip = at(standby());
    assert_eq!((chip.sent("0A000010FF"), chip.status()), (0, 0x03), "equal bytes are a cycle");
    assert_eq!((chip.wait(2).status(), chip.wait(1).status()), (0x01, 0x00));
}

/// Around the end of the page, with 255, 256 and 257 data bytes, and beyond bit 18.
#[test]
fn page_write_in_its_page() {
    let mut chip = at(standby());
    assert_eq!(chip.sent("0A0001FE112233"), 0);
    let around = [0x1FD, 0x1FE, 0x1FF, 0x100, 0x101, 0x200];
    assert_eq!(chip.wait(3).array(around), [0xFF, 0x11, 0x22, 0x33, 0xFF, 0xFF]);

    for code in ["0A", "02"] {
        let mut chip = at(standby());
        let long = format!("{code}00008011{}22", "33".repeat(255));
        assert_eq!(chip.transact(&bytes(&long), 0, 1).word(), 0);
        if let Some(Cycle::PageWrite { address, named, .. }) = chip.now().cycle() {
            assert_eq!((address, named), (0x80, 256));
        }
        assert_eq!(chip.wait(3).array([0x80, 0x100]), [0x22, 0xFF]);
        let page = &chip.0.pair.real.array[..0x100];
        assert_eq!(page.iter().filter(|byte| **byte == 0x33).count(), 255);
    }

    for (last, first_byte) in [("", 0x5A), ("77", 0x77)] {
        let mut chip = holding(standby(), &[(0, 0x5A)]);
        assert_eq!(chip.sent(&format!("0A000001{}{last}", "00".repeat(255))), 0);
        assert_eq!(chip.wait(3).array([0x00, 0x01, 0xFF, 0x100]), [first_byte, 0x00, 0x00, 0xFF]);
    }

    for (hex, place, byte) in [("0A08001099", 0x10, 0x99), ("0AFFFFFF77", 0x7_FFFF, 0x77)] {
        let mut chip = at(standby());
        assert_eq!((chip.sent(hex), chip.now().cycle().unwrap().address()), (0, Some(place)));
        assert_eq!(chip.wait(3).array([place]), [byte]);
    }
}

#[test]
fn page_write_refused() {
    let reset = Record { latch: false, ..standby() };
    apart(&[
        (standby(), "0A000010", 15),
        (reset, "0A00001055", 16),
        (Record { bp: 7, ..reset }, "0A00001055", 16),
        (Record { bp: 1, ..standby() }, "0A07000055", 17),
        (Record { bp: 1, ..standby() }, "0A06FFFF55", 0),
        (lock(7, 1), "0A07000055", 17),
        (lock(7, 2), "0A07000055", 0),
    ]);
    assert_eq!(at(standby()).pulsed("0A00001055", 1), 15);
}

/// Bytes at the borders of what is erased: with the last of so many ticks the two inner ones become FF. A further byte, a
/// byte less and a further pulse are not taken.
fn erases(hex: &str, places: [usize; 4], ticks: u32) {
    let mut chip = holding(standby(), &places.map(|place| (place, 0x00)));
    assert_eq!((chip.sent(hex), chip.status()), (0, 0x03));
    assert_eq!((chip.wait(ticks - 1).status(), chip.array(places)), (0x01, [0x00; 4]));
    assert_eq!((chip.wait(1).status(), chip.array(places)), (0x00, [0x00, 0xFF, 0xFF, 0x00]));
    apart(&[
        (standby(), &hex[..6], 15),
        (standby(), &format!("{hex}00"), 15),
        (Record { latch: false, ..standby() }, hex, 16),
        (Record { bp: 4, ..standby() }, hex, 17),
        (lock(0, 1), hex, 17),
        (lock(0, 2), hex, 0),
    ]);
    for pulses in [1, 7] {
        assert_eq!(at(standby()).pulsed(hex, pulses), 15);
    }
}

#[test]
fn page_and_subsector_erase() {
    erases("DB000180", [0xFF, 0x100, 0x1FF, 0x200], 3);
    erases("20001ABC", [0xFFF, 0x1000, 0x1FFF, 0x2000], 5);
    apart(&[
        (Record { bp: 3, ..standby() }, "DB03FF00", 0),
        (Record { bp: 1, ..standby() }, "20070000", 17),
        (Record { bp: 1, ..standby() }, "2006F000", 0),
    ]);
}

#[test]
fn lock_register_read() {
    let mut chip = at(Record { latch: false, ..lock(7, 3) });
    let mut heard = |hex, pulses| chip.heard(hex, pulses);
    assert_eq!(heard("E807000000", 0), ("FFFFFFFF03".to_string(), driven(4, 1)));
    assert_eq!(heard("E807FFFF000000", 0), ("FFFFFFFF030303".to_string(), driven(4, 3)));
    assert_eq!(heard("E80700000000", 5), ("FFFFFFFF0303".to_string(), driven(4, 2)));
    assert_eq!(heard("E806FFFF00", 0), ("FFFFFFFF00".to_string(), driven(4, 1)));
    assert_eq!(heard("E80F000000", 0), ("FFFFFFFF03".to_string(), driven(4, 1)));
    assert_eq!(heard("E8070000", 0), ("FFFFFFFF".to_string(), 0));
    assert_eq!(chip.sent("E80700"), 15);
}

#[test]
fn lock_register_written() {
    let mut chip = at(standby());
    assert_eq!((chip.sent("E503FFFF01"), chip.status()), (0, 0x00), "no cycle, the latch reset");
    assert_eq!(chip.now().locks, [0, 0, 0, 1, 0, 0, 0, 0]);
    let mut chip = at(lock(3, 1));
    assert_eq!((chip.sent("E503000002"), chip.now().locks[3], chip.sent("06")), (0, 2, 0));
    assert_eq!((chip.sent("E503000000"), chip.sent("E503000002")), (19, 19));
    assert_eq!((chip.now().locks[3], chip.status()), (2, 0x02));
    assert_eq!(chip.sent("0203000000"), 0, "lock-down alone protects nothing");
    for (from, hex, value) in [
        (standby(), "E5030000FF", 3),
        (standby(), "E5030000FC", 0),
        (lock(3, 1), "E503000000", 0),
        (standby(), "E5FB000001", 1),
    ] {
        let mut chip = at(from);
        assert_eq!((chip.sent(hex), chip.now().locks[3]), (0, value), "{hex}");
    }
    let reset = |from| Record { latch: false, ..from };
    apart(&[
        (standby(), "E5030000", 15),
        (standby(), "E50300000100", 15),
        (reset(standby()), "E503000001", 16),
        (reset(lock(3, 3)), "E503000000", 16),
    ]);
    assert_eq!(at(standby()).pulsed("E503000001", 1), 15);
    let mut chip = at(Record { bp: 7, srwd: true, ..standby() });
    assert_eq!(chip.transact(&bytes("E503000001"), 0, 0).answer(), 0);
    assert_eq!((chip.now().locks[3], chip.sent("06")), (1, 0));
    assert_eq!(chip.transact(&[0x01, 0x00], 0, 0).answer(), 18);
}

#[test]
fn what_a_lock_stops() {
    let mut chip = at(lock(3, 1));
    for hex in ["0A03000055", "0203000055", "DB030000", "20030000", "D8030000", "C7"] {
        assert_eq!(chip.sent(hex), 17, "{hex}");
    }
    assert_eq!((chip.status(), chip.sent("0A02FFFF55")), (0x02, 0));
    apart(&[
        (standby(), "C7", 0),
        (lock(5, 1), "C7", 17),
        (lock(5, 2), "C7", 0),
        (locked([2; 8]), "C7", 0),
        (Record { bp: 1, ..standby() }, "C7", 17),
        (standby(), "C700", 15),
    ]);
    let places = [0xFFFF, 0x1_0000, 0x1_FFFF, 0x2_0000];
    let mut chip = holding(standby(), &places.map(|place| (place, 0x00)));
    assert_eq!(chip.sent("D8018000"), 0);
    assert_eq!(chip.wait(5).array(places), [0x00, 0xFF, 0xFF, 0x00]);
}

#[test]
fn busy() {
    let mut chip = at(standby());
    assert_eq!(chip.sent("0A00000055"), 0);
    for hex in [
        "06",
        "04",
        "9F00",
        "0100",
        "E500000001",
        "E800000000",
        "0300000000",
        "0B0000000000",
        "0A00000066",
        "0200000066",
        "DB000000",
        "20000000",
        "D8000000",
        "C7",
        "B9",
        "AB",
    ] {
        assert_eq!(chip.sent(hex), 12, "{hex}");
    }
    assert_eq!((chip.status(), chip.wait(3).array([0x00])), (0x03, [0x55]));
}

#[test]
fn cycles_cut() {
    let places = [0x00, 0x01, 0xFE, 0xFF, 0x100];
    let started = || {
        let mut chip = holding(standby(), &places.map(|place| (place, 0xA0)));
        assert_eq!(chip.sent("0A0000FE112233"), 0);
        chip
    };
    for yes in [0, 1] {
        let mut chip = started();
        chip.loss(0x08, &[(0x00, 0x04), (0xFE, 0x01), (0xFF, 0x02)], yes);
        assert_eq!(chip.array(places), [0xA4, 0xA0, 0xA1, 0xA2, 0xA0]);
        assert_eq!(chip.status(), 0x00);
    }
    assert_eq!(started().power_up().array(places), [0x33, 0xA0, 0x11, 0x22, 0xA0]);

    let places = [0x80, 0xFF, 0x100, 0x01];
    let mut chip =
        holding(standby(), &places[..3].iter().map(|at| (*at, 0xA0)).collect::<Vec<_>>());
    assert_eq!(chip.sent(&format!("0A00008011{}22", "33".repeat(255))), 0);
    assert_eq!(chip.loss(0x05, &[], 0).array(places), [0xA5, 0xA5, 0xA0, 0xFF]);

    let mask = [(0x00, 0x05), (0xFF, 0x0A)];
    let places = [0xFF, 0x100, 0x1FF, 0x200];
    let mut chip = holding(standby(), &places.map(|place| (place, 0xA0)));
    assert_eq!(chip.sent("DB000180"), 0);
    assert_eq!(chip.loss(0x00, &mask, 0).array(places), [0xA0, 0xA5, 0xAA, 0xA0]);
    let places = [0xFFF, 0x1000, 0x10FF, 0x1100, 0x1FFF, 0x2000];
    let mut chip = holding(standby(), &places.map(|place| (place, 0xA0)));
    assert_eq!(chip.sent("20001ABC"), 0);
    assert_eq!(chip.loss(0x00, &mask, 0).array(places), [0xA0, 0xA5, 0xAA, 0xA5, 0xAA, 0xA0]);
}

/// Power-up and a loss open all locks, in a cycle or not; nothing else does.
#[test]
fn locks_and_power() {
    let deep = Record { mode: Mode::Deep, ..locked([3; 8]) };
    for from in [locked([3; 8]), deep] {
        let rested = Record { latch: false, ..standby() };
        assert_eq!(at(from).power_up().now(), rested);
        for yes in [0, 1] {
            assert_eq!(at(from).loss(0x5A, &[], yes).now(), rested);
        }
    }
    let writing = || {
        let mut chip = at(standby());
        assert_eq!((chip.sent("E507000003"), chip.sent("06"), chip.sent("0A00000055")), (0, 0, 0));
        chip
    };
    let (mut powered, mut lost) = (writing(), writing());
    assert_eq!(powered.power_up().array([0]), [0x55]);
    assert_eq!(lost.loss(0x00, &[], 1).array([0]), [0xFF]);
    assert_eq!((powered.now().locks, lost.now().locks), ([0; 8], [0; 8]));

    let mut chip = at(standby());
    for hex in ["E503000003", "06", "04", "B9", "AB", "06", "0A00000055"] {
        assert_eq!(chip.sent(hex), 0, "{hex}");
    }
    assert_eq!(chip.wait(3).now().locks, [0, 0, 0, 3, 0, 0, 0, 0]);
    assert_eq!((chip.sent("06"), chip.sent("E503000000")), (0, 19));
}

#[test]
fn packing() {
    let mut chip = at(standby());
    assert_eq!(chip.sent("0A0001FE112233"), 0);
    let packed = chip.now().pack();
    let mut expected = [0; RECORD_BYTES];
    let front =
        [6, 0, 0, 1, 1, 0, 0, 0, 3, 0, 0, 0, 3, 0, 0, 0, 5, 0, 0, 0, 9, 0, 0, 0, 2, 0, 0, 0];
    expected[..28].copy_from_slice(&front);
    expected[28..36].copy_from_slice(&[5, 0, 0, 0, 0xFE, 0x01, 0, 0]);
    expected[36..292].fill(0xFF);
    (expected[36], expected[290], expected[291], expected[292]) = (0x33, 0x11, 0x22, 3);
    assert_eq!((packed, &chip.0.pair.real.record[..304]), (expected, &expected[..]));
    let changes: [(&[(usize, u8)], u8); 10] = [
        (&[(0, 2)], 6),
        (&[(292, 0)], 6),
        (&[(292, 1), (293, 1)], 6),
        (&[(28, 6)], 6),
        (&[(296, 4)], 6),
        (&[(34, 8)], 6),
        (&[(37, 0)], 0),
        (&[(303, 3)], 0),
        (&[(28, 1), (292, 0)], 0),
        (&[(292, 0), (293, 1)], 0),
    ];
    for (change, answer) in changes {
        let mut bytes = packed;
        change.iter().for_each(|(at, byte)| bytes[*at] = *byte);
        assert_eq!(chip.0.call(Some(bytes), Call::Wait(0)).answer(), answer, "{change:?}");
    }
    for length in [292, 303] {
        let short = chip.0.call_lent(Some(packed), Call::Wait(0), length, 524_288);
        assert_eq!(short.answer(), 8);
    }
}

#[test]
fn reads() {
    let mut chip = holding(standby(), &[(0x7_FFFF, 0x5A), (0, 0xC3)]);
    let mut heard = |hex| chip.heard(hex, 0);
    assert_eq!(heard("0307FFFF0000"), ("FFFFFFFF5AC3".to_string(), driven(4, 2)));
    assert_eq!(heard("0B07FFFF000000"), ("FFFFFFFFFF5AC3".to_string(), driven(5, 2)));
    assert_eq!(heard("030FFFFF00"), ("FFFFFFFF5A".to_string(), driven(4, 1)));
    assert_eq!(heard("0B07FFFF00"), ("FFFFFFFFFF".to_string(), 0));
    assert_eq!(chip.sent("0B07FFFF"), 15);
}

/// In one run of raw pins a lock register is written and then read three times over and by a half more; a release
/// that is not alone shows nothing.
#[test]
fn over_raw_pins() {
    let mut probe = Probe::new(SpiMode::Zero, 1);
    for (hex, pulses) in [("E503000002", 0), ("E8030000000000", 4), ("AB0000000000", 0)] {
        probe.transaction(&bytes(hex), pulses, true);
    }
    let mut chip = at(standby());
    let run = chip.0.call(None, Call::Pins { samples: probe.samples });
    let numbers: Vec<u8> = run.chip.iter().map(|outcome| outcome.answer).collect();
    assert_eq!((run.word(), numbers), (0, vec![0, 0, 15]));
    let output = &chip.0.pair.real.filled[0];
    let driven = output.iter().filter(|byte| **byte < 2).collect::<Vec<_>>();
    // Each bit shows in two samples; the register is all bits 0 but bit 1.
    let ones: Vec<usize> = (0..driven.len()).filter(|i| *driven[*i] == 1).collect();
    assert_eq!(ones, [12, 13, 28, 29, 44, 45]);
    assert_eq!(chip.now().locks, [0, 0, 0, 2, 0, 0, 0, 0]);
}
