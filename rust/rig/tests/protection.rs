//! What hardware protection is worth (Wish 8), on libm25p.a: from a chip in standby with SRWD set, random
//! transactions with W low, runs of raw pins with W low as Select rises, batches with W low, waits, power-ups and power
//! losses leave BP, SRWD and each byte of a protected sector as they were. Which sectors are protected is told by the
//! paper's table. The wish is of the M25P parts; the M25PE40 is tried with them.

#[path = "support/tried.rs"]
mod tried;

use m25p::{Answer, Chip, Durations, Part};
use rig::batch_generate::{heads, BatchGenerator};
use rig::batch_model::WAIT;
use rig::compare::{Call, Pair, Rules, Source, Step, PAPER};
use rig::faults;
use rig::generate::Generator;
use rig::model::{Mode, Record, PAGE, PARTS, PP, RDSR, RECORD_BYTES, SMALL, WREN, WRSR};
use rig::pins_generate::PinsGenerator;
use rig::pins_model::{REST, SELECT, W};
use rig::rng::Rng;
use tried::{endures, Answers, Made, Modelled, Tried};

/// How many calls go by until a large array is looked at again.
const INTERVAL: usize = 100;

/// Runs of raw pins, within which no ticks pass, or batches: between them a cycle ends or is cut, and so does deep
/// power-down.
struct Between<S> {
    runs: S,
    rng: Rng,
}

impl<S: Source> Source for Between<S> {
    fn new(part: usize, seed: u64) -> Between<S> {
        Between { runs: S::new(part, seed), rng: Rng::new(seed) }
    }

    fn sound_record(&mut self) -> Record {
        self.runs.sound_record()
    }

    fn step(&mut self, now: &Record) -> Step {
        let between = match now.mode {
            Mode::Standby => return self.runs.step(now),
            _ if self.rng.one_in(3) => {
                Call::Loss { mask: self.rng.bytes(PAGE), yes: self.rng.below(2) as u32 }
            }
            Mode::Busy(left, _) => Call::Wait(left),
            Mode::Deep => Call::PowerUp,
        };
        let array_len = now.figures().bytes;
        Step { call: between, record: None, record_len: RECORD_BYTES, array_len, filled: vec![] }
    }
}

/// W is low in each sample in which Select rises, and as it was in the others.
fn low_as_select_rises(samples: &mut [u8]) {
    let mut before = REST;
    for sample in samples {
        if before & SELECT == 0 && *sample & SELECT != 0 {
            *sample &= !W;
        }
        before = *sample;
    }
}

/// W is low in each transaction of a batch.
fn low_in_each(items: &mut [u8]) {
    for head in heads(items) {
        if let Some(flag) = items.get_mut(head + 2).filter(|flag| **flag < WAIT) {
            *flag &= !1;
        }
    }
}

/// A call, refused ones too, with W low; no delivery.
fn with_w_low(step: &mut Step) -> bool {
    match &mut step.call {
        Call::Deliver { .. } => return false,
        Call::Transact { w, .. } => *w = 0,
        Call::Pins { samples } => low_as_select_rises(samples),
        Call::Batch { items } | Call::Report { items } => low_in_each(items),
        Call::Wait(_) | Call::PowerUp | Call::Loss { .. } => {}
    }
    true
}

/// What came, and how often power was lost in a cycle.
struct Count {
    answers: Answers,
    cut: u64,
}

/// What is protected at the start stays: BP and SRWD, and each byte of a protected sector.
fn kept(start: Record, made: &Made) -> Result<(), &'static str> {
    let part = start.figures();
    let protected = (part.sectors - part.protected[start.bp as usize]) * part.sector_bytes..;
    // part, BP and SRWD are the first three bytes
    if made.is.record[..3] != made.was.record[..3] {
        return Err("BP or SRWD is another");
    }
    let look = SMALL.contains(&(start.part as usize)) || made.call % INTERVAL == 0;
    if look && made.is.array[protected.clone()] != made.was.array[protected] {
        return Err("a protected byte is another");
    }
    Ok(())
}

/// Calls with W low from every BP of the part with SRWD set, the latch set or not.
fn endure<S: Source, T: Tried>(part: usize, rules: Rules) -> Result<Count, String> {
    let mut seeds = Rng::new(8);
    let mut count = Count { answers: Answers::none(), cut: 0 };
    for bp in 0..=PARTS[part].highest_bp {
        for latch in [false, true] {
            let start = Record { bp, latch, srwd: true, ..Record::standby(part as u8) };
            endures::<S, T>(start, seeds.draw(), rules, with_w_low, |made| {
                count.answers.count(&made);
                let lost = matches!(made.step.call, Call::Loss { .. }) && made.seen.answer() == 0;
                count.cut += u64::from(lost && made.before.cycle().is_some());
                kept(start, &made)
            })?;
        }
    }
    Ok(count)
}

/// The library keeps what is protected; power was lost in cycles, and each of these numbers came often.
fn library_keeps<S: Source>(part: usize, numbers: &[usize]) {
    let count = endure::<S, Pair>(part, PAPER).unwrap_or_else(|e| panic!("{e}"));
    assert!(count.cut >= 100, "part {part}: power was lost in {} cycles only", count.cut);
    count.answers.often(part, numbers);
}

#[test]
fn w_low_keeps_what_is_protected() {
    for part in 0..PARTS.len() {
        library_keeps::<Generator>(part, &[0, 2, 4, 5, 11, 12, 14, 15, 16, 17, 18]);
    }
}

#[test]
fn w_low_keeps_it_over_raw_pins() {
    for part in SMALL {
        library_keeps::<Between<PinsGenerator>>(part, &[0, 12, 16, 17, 18]);
    }
}

#[test]
fn w_low_keeps_it_over_batches() {
    for part in SMALL {
        library_keeps::<Between<BatchGenerator>>(part, &[0, 12, 16, 17, 18]);
    }
}

/// The same calls on the small parts notice a chip that gives way.
#[test]
fn chips_that_give_way_are_seen() {
    let give_way = [
        "NeverFrozen",
        "FrozenAtBpZeroAlone",
        "ProtectedWithWHighAlone",
        "RunOnPage",
        "PowerUpClearsSettings",
        "CutReachesAll",
        "losses::Afterwards(losses::settings_are_reset)",
    ];
    for name in give_way {
        let rules = Rules { chip: faults::named_so(name), ..PAPER };
        let seen = SMALL.iter().any(|part| endure::<Generator, Modelled>(*part, rules).is_err());
        assert!(seen, "{name} was not seen");
    }
}

/// On a delivered chip these settings are made, with W high. Then with W low, but for the status write perhaps:
/// write enable, a status write of 00, write enable, a program of 00 at the last byte. The answers, the status, the
/// byte.
fn attempt(part: Part, settings: u8, w_high_at_status_write: bool) -> (Vec<Answer>, u8, u8) {
    let ticks = Durations::default().write_status;
    let mut chip = Chip::deliver(part, Durations::default()).expect("a delivery");
    let last = part.bytes() - 1;
    let program = [PP, (last >> 16) as u8, (last >> 8) as u8, last as u8, 0x00];
    chip.transact(&[WREN], 0, true).executed().expect("a write enable");
    chip.transact(&[WRSR, settings], 0, true).executed().expect("a status write");
    chip.wait(ticks);
    let mut answers = vec![
        chip.transact(&[WREN], 0, false).answer,
        chip.transact(&[WRSR, 0x00], 0, w_high_at_status_write).answer,
    ];
    chip.wait(ticks);
    answers.push(chip.transact(&[WREN], 0, false).answer);
    answers.push(chip.transact(&program, 0, false).answer);
    chip.power_up();
    let status = chip.transact(&[RDSR, 0x00], 0, false).line[1];
    (answers, status, chip.array()[last])
}

/// Its limits, on every part: W high in one transaction, or SRWD not set at the start.
#[test]
fn w_high_once_or_srwd_reset_undoes_it() {
    use Answer::{Executed, Protected, StatusFrozen};
    for part in Part::ALL {
        let kept = vec![Executed, StatusFrozen, Executed, Protected];
        assert_eq!(attempt(part, 0x84, false), (kept, 0x84, 0xFF), "{part:?}");
        assert_eq!(attempt(part, 0x84, true), (vec![Executed; 4], 0x00, 0x00), "{part:?}");
        assert_eq!(attempt(part, 0x04, false), (vec![Executed; 4], 0x00, 0x00), "{part:?}");
    }
}

/// Another limit: a status write that was started with W high and is still running is no standby record. With W low
/// from then on, its end, a power-up and a power loss that completed it take the protection away; one that left it
/// absent does not.
#[test]
fn status_write_on_its_way_undoes_it() {
    let ends: [(fn(&mut Chip), u8); 4] = [
        (|chip| chip.wait(2), 0x00),
        (|chip| chip.power_up(), 0x00),
        (|chip| chip.loss(&[0x00; PAGE], true), 0x00),
        (|chip| chip.loss(&[0x00; PAGE], false), 0x84),
    ];
    for part in Part::ALL {
        for (end, status) in ends {
            let mut chip = Chip::deliver(part, Durations::default()).expect("a delivery");
            for settings in [0x84, 0x00] {
                chip.wait(9);
                chip.transact(&[WREN], 0, true).executed().expect("a write enable");
                chip.transact(&[WRSR, settings], 0, true).executed().expect("a status write");
            }
            assert_eq!(chip.transact(&[RDSR, 0x00], 0, false).line[1], 0x87, "the old settings");
            end(&mut chip);
            assert_eq!(chip.transact(&[RDSR, 0x00], 0, false).line[1], status, "{part:?}");
        }
    }
}
