//! The model's cycles, by hand from the paper: when array and settings change, what is remembered and how it is packed,
//! which records are sound, and what power-up and power losses leave.

#[path = "support/worked.rs"]
mod cases;

use cases::{case, worked, Case};
use rig::model::{Cycle, Mode, Model, Outcome, Paper, Record, PAGE, RECORD_BYTES};

/// An instruction of each kind: a program of 0F 33 at 0003FF, a sector erase at 0007FE, a bulk erase, a status write.
const STARTS: [&[u8]; 4] =
    [&[0x02, 0x00, 0x03, 0xFF, 0x0F, 0x33], &[0xD8, 0x00, 0x07, 0xFE], &[0xC7], &[0x01, 0xFF]];

/// A chip all 5A with this instruction executed.
fn started(record: Record, sent: &[u8]) -> Case {
    let mut chip = case(record);
    chip.array.fill(0x5A);
    assert_eq!(chip.answer(sent), 0);
    chip
}

impl Case {
    fn loss(&mut self, mask: &[u8], yes: u32) -> Outcome {
        Paper.loss(&mut self.record, &mut self.array, mask, yes)
    }

    fn power_up(&mut self) {
        assert_eq!(Paper.power_up(&mut self.record, &mut self.array), Outcome::only(0));
    }

    fn is(&self, other: &Case) -> bool {
        (self.record, &self.array) == (other.record, &other.array)
    }
}

/// Nothing of array and settings changes before the last tick; however the ticks are cut up, the end is the same.
#[test]
fn effect_with_the_last_tick() {
    for sent in STARTS {
        let start = started(worked(), sent);
        let Mode::Busy(left, _) = start.now().mode else { panic!("busy") };
        let mut whole = started(worked(), sent);
        whole.wait(left);
        assert!(!whole.is(&start) && whole.now().mode == Mode::Standby);
        for ticks in [left + 1, u32::MAX] {
            let mut beyond = started(worked(), sent);
            beyond.wait(ticks);
            assert!(beyond.is(&whole), "ticks beyond the last are lost");
        }
        let mut chip = started(worked(), sent);
        for passed in 1..left {
            chip.wait(0);
            chip.wait(1);
            assert_eq!(chip.now(), start.now().busy(left - passed, start.now().cycle().unwrap()));
            assert_eq!(chip.array, start.array);
        }
        chip.wait(1);
        assert!(chip.is(&whole));
    }
}

/// What each kind has done: the page, the sector, all, or the settings.
#[test]
fn effects() {
    let ended = STARTS.map(|sent| {
        let mut chip = started(worked(), sent);
        chip.wait(9);
        chip
    });
    let settings = Record { bp: 3, srwd: true, ..worked().rested() };
    let records = ended.each_ref().map(|chip| chip.now());
    assert_eq!(records, [worked().rested(), worked().rested(), worked().rested(), settings]);
    let mut programmed = vec![0x5A; 4_096];
    (programmed[0x3FF], programmed[0x300]) = (0x5A & 0x0F, 0x5A & 0x33);
    assert_eq!(ended[0].array, programmed);
    let mut erased = vec![0x5A; 4_096];
    erased[0x400..0x800].fill(0xFF);
    assert_eq!(ended[1].array, erased);
    assert_eq!(ended[2].array, vec![0xFF; 4_096]);
    assert_eq!(ended[3].array, vec![0x5A; 4_096]);
}

/// A cycle of one tick starts with the latch reset.
#[test]
fn cycles_of_one_tick() {
    let one = Record { program: 1, sector_erase: 1, bulk_erase: 1, write_status: 1, ..worked() };
    for (sent, after) in STARTS.into_iter().zip([0x00, 0x00, 0x00, 0x8C]) {
        let mut chip = started(one, sent);
        assert_eq!((chip.status(), chip.answer(&[0x06])), (0x01, 12));
        chip.wait(0);
        assert_eq!(chip.status(), 0x01);
        chip.wait(1);
        assert_eq!(chip.status(), after);
    }
}

/// Equal settings, and a program that changes nothing, are a whole cycle too.
#[test]
fn cycles_that_change_nothing() {
    for sent in [&[0x01, 0x00][..], &[0x02, 0, 0, 0, 0xFF]] {
        let mut chip = started(worked(), sent);
        assert_eq!(chip.status(), 0x03);
        chip.wait(3);
        assert!(chip.status() == 0x00 && chip.array.iter().all(|byte| *byte == 0x5A));
    }
}

/// A cycle acts on the array that is lent at its end.
#[test]
fn array_at_the_end() {
    let mut chip = started(worked(), STARTS[0]);
    chip.array.fill(0xC3);
    chip.wait(3);
    assert_eq!((chip.array[0x3FF], chip.array[0x300], chip.array[0x301]), (0x03, 0x03, 0xC3));
}

/// Kind, new BP and SRWD, a zero byte, the address, the slots; outside a cycle zeros, and behind the slots too.
#[test]
fn packed_cycles() {
    let packed = |sent: &[u8]| started(worked(), sent).record[28..].to_vec();
    let mut program = vec![0xFF; 276];
    program[..8].copy_from_slice(&[1, 0, 0, 0, 0xFF, 0x03, 0, 0]);
    (program[8 + 255], program[8]) = (0x0F, 0x33);
    program[264..].fill(0x00);
    assert_eq!(packed(STARTS[0]), program);
    let rest = |head: &[u8]| [head, &vec![0; 276 - head.len()]].concat();
    assert_eq!(packed(STARTS[1]), rest(&[2, 0, 0, 0, 0xFE, 0x07]));
    assert_eq!(
        packed(&[0xD8, 0xFF, 0xF7, 0xFE]),
        rest(&[2, 0, 0, 0, 0xFE, 0x07]),
        "modulo the size"
    );
    assert_eq!(packed(STARTS[2]), rest(&[3]));
    assert_eq!(packed(STARTS[3]), rest(&[4, 3, 1]), "BP cut to the part's bits");
    assert_eq!(packed(&[0x01, 0x08]), rest(&[4, 2, 0]));
    assert_eq!(packed(&[0xB9]), rest(&[]));
    let larger = Record { part: 2, ..worked() };
    assert_eq!(started(larger, &[0x01, 0x9C]).record[28..31], [4, 7, 1]);
    let mut ended = started(worked(), STARTS[0]);
    ended.wait(3);
    assert_eq!(ended.record[28..], [0; 276]);
}

/// A busy record is sound with the latch set exactly if more than one tick is left.
#[test]
fn sound_latches() {
    for (left, set, reset) in [(0, false, false), (1, false, true), (2, true, false)] {
        let busy = worked().busy(left, Cycle::BulkErase);
        let sound = |latch| Record::unpack(&Record { latch, ..busy }.pack()).is_some();
        assert_eq!((sound(true), sound(false)), (set, reset), "{left} ticks left");
    }
}

/// Whether the bytes from 28 on are sound with these put in, in a busy record of the bench part.
fn sound(kind: u8, settings: [u8; 3], address: u32, slots: u8) -> bool {
    let mut bytes = worked().busy(1_000_000, Cycle::BulkErase).pack();
    bytes[28] = kind;
    bytes[29..32].copy_from_slice(&settings);
    bytes[32..36].copy_from_slice(&address.to_le_bytes());
    bytes[36..292].fill(slots);
    Record::unpack(&bytes).is_some_and(|record| record.pack() == bytes)
}

/// Of a cycle, only what its kind uses may be other than zero, within the part's; the ticks left may be more than its
/// duration, and it may be one in a protected sector.
#[test]
fn sound_cycles() {
    assert!(sound(1, [0; 3], 4_095, 0x00) && sound(1, [0; 3], 0, 0xFF));
    assert!(sound(2, [0; 3], 4_095, 0x00) && sound(3, [0; 3], 0, 0x00));
    assert!(sound(4, [3, 1, 0], 0, 0x00) && sound(4, [0; 3], 0, 0x00));
    for kind in [0, 5, 6, 7, 8, 128, 255] {
        assert!(!sound(kind, [0; 3], 0, 0x00), "kind {kind}");
    }
    for kind in 1..=4 {
        assert!(!sound(kind, [0, 0, 1], 0, 0x00), "the zero byte, kind {kind}");
        assert_eq!(sound(kind, [1, 0, 0], 0, 0x00), kind == 4);
        assert_eq!(sound(kind, [0, 1, 0], 0, 0x00), kind == 4);
        assert_eq!(sound(kind, [0; 3], 1, 0x00), kind <= 2);
        assert_eq!(sound(kind, [0; 3], 0, 0x01), kind == 1);
        assert!(!sound(kind, [0; 3], 4_096, 0x00) && !sound(kind, [0; 3], 1 << 24, 0x00));
    }
    assert!(!sound(4, [4, 0, 0], 0, 0x00) && !sound(4, [0, 2, 0], 0, 0x00));
    let protected = Record { bp: 3, ..worked() };
    for cycle in [Cycle::BulkErase, Cycle::SectorErase { address: 4_095 }] {
        let mut chip = case(protected.busy(7, cycle));
        chip.array.fill(0x00);
        chip.wait(7);
        assert_eq!((chip.now(), chip.array[4_095]), (protected.rested(), 0xFF));
    }
}

/// Outside a cycle all of its bytes are zero.
#[test]
fn no_cycle_outside_one() {
    for mode in [Mode::Standby, Mode::Deep] {
        for at in 28..RECORD_BYTES {
            let mut bytes = Record { mode, ..worked() }.pack();
            assert!(Record::unpack(&bytes).is_some());
            bytes[at] = 1;
            assert!(Record::unpack(&bytes).is_none(), "byte {at}");
        }
    }
}

/// A mask whose bytes are all different.
fn counting() -> [u8; PAGE] {
    std::array::from_fn(|at| at as u8)
}

/// Each byte of a cut cycle, whenever it is cut; then standby with the latch reset, and no cycle.
#[test]
fn cut_bytes() {
    let page = |at: usize| counting()[at % 256];
    let slot =
        |at: usize| [(0x3FF, 0x0F), (0x300, 0x33)].iter().find(|s| s.0 == at).map_or(0xFF, |s| s.1);
    for (kind, sent) in STARTS[..3].iter().enumerate() {
        for passed in 0..3 {
            let mut chip = started(worked(), sent);
            chip.wait(passed);
            assert_eq!(chip.loss(&counting(), passed), Outcome::only(0));
            assert_eq!(chip.now(), worked().rested());
            for (at, byte) in chip.array.iter().enumerate() {
                let expected = match kind {
                    0 if at / 256 == 3 => 0x5A & (slot(at) | page(at)),
                    1 if at / 1_024 == 1 => 0x5A | page(at),
                    2 => 0x5A | page(at),
                    _ => 0x5A,
                };
                assert_eq!(*byte, expected, "{sent:02X?}, byte {at}");
            }
        }
    }
}

/// A cut status write is complete on yes and absent on no, at whichever tick.
#[test]
fn cut_settings() {
    for passed in [0, 1] {
        for (yes, bp, srwd) in [(0, 0, false), (1, 3, true), (256, 3, true), (1 << 31, 3, true)] {
            let mut chip = started(worked(), STARTS[3]);
            chip.wait(passed);
            assert_eq!(chip.loss(&counting(), yes), Outcome::only(0));
            assert_eq!(chip.now(), Record { bp, srwd, ..worked().rested() });
            assert!(chip.array.iter().all(|byte| *byte == 0x5A));
        }
    }
}

/// Power-up completes a cycle: it is the loss with a mask of 00 for a program, of FF for an erase, and a yes.
#[test]
fn power_up_completes() {
    for (sent, mask) in STARTS.into_iter().zip([0x00, 0xFF, 0xFF, 0x5C]) {
        let mut waited = started(worked(), sent);
        waited.wait(9);
        let mut powered = started(worked(), sent);
        powered.wait(1);
        powered.power_up();
        let mut lost = started(worked(), sent);
        lost.loss(&[mask; PAGE], 1);
        assert!(powered.is(&waited) && lost.is(&waited));
        lost.loss(&counting(), 0);
        assert!(lost.is(&waited), "a second loss changes nothing more");
    }
}

/// Outside a cycle power-up and loss leave standby and a reset latch, and all else as it was.
#[test]
fn power_outside_a_cycle() {
    let settings = Record { bp: 2, srwd: true, ..worked() };
    for record in [settings, settings.rested(), Record { mode: Mode::Deep, ..settings }] {
        for yes in [0, 1] {
            let mut chip = case(record);
            chip.array.fill(0x5A);
            assert_eq!(chip.loss(&counting(), yes), Outcome::only(0));
            assert_eq!(chip.now(), settings.rested());
            assert!(chip.array.iter().all(|byte| *byte == 0x5A));
        }
        let mut chip = case(record);
        chip.power_up();
        assert_eq!(chip.now(), settings.rested());
    }
}

/// 8, 6, 2, then 41, also where the mask would not be used; waiting 0 ticks is checked, too.
#[test]
fn refusals_in_order() {
    let unsound = [9; RECORD_BYTES];
    for start in STARTS.map(|sent| started(worked(), sent)).iter().chain([&case(worked())]) {
        let answers = |record: &[u8], array: usize, mask: usize| {
            let (mut record, mut array) = (record.to_vec(), start.array[..array].to_vec());
            let before = (record.clone(), array.clone());
            let answers = [
                Paper.wait(&mut record, &mut array, 0),
                Paper.wait(&mut record, &mut array, 9),
                Paper.power_up(&mut record, &mut array),
                Paper.loss(&mut record, &mut array, &vec![0xFF; mask], 1),
            ];
            assert_eq!((record, array), before, "a refused call writes nothing");
            answers.map(|outcome| outcome.word())
        };
        assert_eq!(answers(&unsound[1..], 0, 0), [8; 4]);
        assert_eq!(answers(&unsound, 0, 0), [6; 4]);
        assert_eq!(answers(&start.record, 4_095, 0), [2; 4]);
        for mask in [0, 255, 257] {
            let mut chip = case(start.now());
            assert_eq!(chip.loss(&vec![0xFF; mask], 1), Outcome::only(41));
            assert!(chip.is(&case(start.now())));
        }
    }
}

/// What is ignored leaves the remembered cycle as it is; a delivery has none.
#[test]
fn ignored_and_delivered() {
    for sent in STARTS {
        let mut chip = started(worked(), sent);
        let before = chip.record;
        for (ignored, number) in [(&[0x06][..], 12), (&[0xC7], 12), (&[0x00], 14), (&[], 11)] {
            assert_eq!(chip.answer(ignored), number);
        }
        chip.status();
        assert_eq!(chip.record, before);
        let outcome = Paper.deliver(&mut chip.record, 0, &mut chip.array, [3, 5, 9, 2]);
        assert_eq!((outcome, chip.now()), (Outcome::only(0), Record::standby(0)));
    }
}
