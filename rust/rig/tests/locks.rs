//! What a lock is worth, on libm25p.a: from a standby record of the M25PE40 with some sectors write-locked and frozen,
//! random transactions, runs of raw pins, batches and waits, whatever W is, leave each byte of these sectors as it was,
//! and each frozen register. Power-up and power losses end it.

#[allow(dead_code)]
#[path = "support/tried.rs"]
mod tried;

use m25p::{Answer, Chip, Durations, Part};
use rig::batch_generate::BatchGenerator;
use rig::compare::{Call, Pair, Rules, Source, Step, PAPER};
use rig::faults;
use rig::generate::Generator;
use rig::model::{Mode, Record, LOCKS, LOCKS_AT, LOCK_DOWN, PAGE, PARTS, RECORD_BYTES, WRITE_LOCK};
use rig::pins_generate::PinsGenerator;
use rig::rng::Rng;
use tried::{endures, Answers, Made, Modelled, Tried};

const M25PE40: usize = 6;

/// Runs of raw pins, within which no ticks pass: between them a cycle ends.
struct Probing(PinsGenerator);

impl Source for Probing {
    fn new(part: usize, seed: u64) -> Probing {
        Probing(PinsGenerator::new(part, seed))
    }

    fn sound_record(&mut self) -> Record {
        self.0.sound_record()
    }

    fn step(&mut self, now: &Record) -> Step {
        let Mode::Busy(left, _) = now.mode else { return self.0.step(now) };
        let (call, array_len) = (Call::Wait(left), now.figures().bytes);
        Step { call, record: None, record_len: RECORD_BYTES, array_len, filled: vec![] }
    }
}

/// A call, refused ones too, that leaves the power on; no delivery.
fn with_power(step: &mut Step) -> bool {
    !matches!(step.call, Call::Deliver { .. } | Call::PowerUp | Call::Loss { .. })
}

/// Every frozen register stays, and each byte of a sector that is write-locked besides.
fn kept(start: Record, made: &Made) -> Result<(), &'static str> {
    let bytes = PARTS[M25PE40].sector_bytes;
    for (sector, lock) in start.locks.into_iter().enumerate() {
        let sector_bytes = sector * bytes..(sector + 1) * bytes;
        if lock & LOCK_DOWN != 0 && made.is.record[LOCKS_AT + sector] != lock {
            return Err("a frozen lock register is another");
        }
        if lock == LOCK_DOWN | WRITE_LOCK
            && made.is.array[sector_bytes.clone()] != made.was.array[sector_bytes]
        {
            return Err("a byte of a locked sector is another");
        }
    }
    Ok(())
}

/// Calls from records that differ in which sectors are locked, in BP, SRWD and the latch.
fn endure<S: Source, T: Tried>(rules: Rules) -> Result<Answers, String> {
    let mut rng = Rng::new(9);
    let mut answers = Answers::none();
    for sector in 0..LOCKS {
        for any in [0, 3, 3] {
            let mut locks: [u8; LOCKS] = [0; LOCKS].map(|_| rng.byte() & any);
            locks[sector] = LOCK_DOWN | WRITE_LOCK;
            let (bp, srwd, latch) = (rng.pick(&[0, 0, 1, 2]), rng.one_in(3), rng.one_in(2));
            let start = Record { bp, srwd, latch, locks, ..Record::standby(M25PE40 as u8) };
            endures::<S, T>(start, rng.draw(), rules, with_power, |made| {
                answers.count(&made);
                kept(start, &made)
            })?;
        }
    }
    Ok(answers)
}

#[test]
fn a_frozen_lock_keeps_its_sector() {
    let answers = endure::<Generator, Pair>(PAPER).unwrap_or_else(|e| panic!("{e}"));
    answers.often(M25PE40, &[0, 2, 4, 5, 11, 12, 13, 14, 15, 16, 17, 18, 19]);
}

#[test]
fn a_frozen_lock_keeps_it_over_raw_pins() {
    let answers = endure::<Probing, Pair>(PAPER).unwrap_or_else(|e| panic!("{e}"));
    answers.often(M25PE40, &[0, 12, 15, 16, 17, 19]);
}

#[test]
fn a_frozen_lock_keeps_it_over_batches() {
    let answers = endure::<BatchGenerator, Pair>(PAPER).unwrap_or_else(|e| panic!("{e}"));
    answers.often(M25PE40, &[0, 11, 12, 13, 14, 15, 16, 17, 18, 19]);
}

/// The same calls notice a chip that gives way.
#[test]
fn chips_that_give_way_are_seen() {
    let give_way = [
        "Stops(locks::bulk_erase_by_bp_alone)",
        "Stops(locks::lock_of_the_next)",
        "NotStopped(PP)",
        "NotStopped(SE)",
        "NotStopped(PW)",
        "NotStopped(PE)",
        "NotStopped(SSE)",
        "Frozen(locks::never)",
        "Writes(locks::all)",
        "Unlocks(WREN)",
        "Unlocks(DP)",
        "CycleUnlocks",
    ];
    for name in give_way {
        let rules = Rules { chip: faults::named_so(name), ..PAPER };
        assert!(endure::<Generator, Modelled>(rules).is_err(), "{name} was not seen");
    }
}

/// On a delivered M25PE40 the last sector is given this lock register; then the power does something, and the register
/// is written with 00 and the sector with a byte. The answers, and the byte.
fn attempt(lock: u8, power: fn(&mut Chip)) -> (Vec<Answer>, u8) {
    let mut chip = Chip::deliver(Part::M25pe40, Durations::default()).expect("a delivery");
    let written = |chip: &mut Chip, sent: &[u8]| {
        chip.transact(&[0x06], 0, true).executed().expect("a write enable");
        let answer = chip.transact(sent, 0, true).answer;
        chip.wait(Durations::default().program);
        answer
    };
    let mut answers = vec![written(&mut chip, &[0xE5, 0x07, 0xFF, 0xFF, lock])];
    power(&mut chip);
    answers.push(written(&mut chip, &[0x0A, 0x07, 0x00, 0x00, 0x12]));
    answers.push(written(&mut chip, &[0xE5, 0x07, 0x00, 0x00, 0x00]));
    answers.push(written(&mut chip, &[0x0A, 0x07, 0x00, 0x00, 0x34]));
    (answers, chip.array()[0x7_0000])
}

/// Its limits: a register that is not frozen is written, and power-up and a loss open all.
#[test]
fn power_undoes_it() {
    use Answer::{Executed, LockFrozen, Protected};
    let stays: fn(&mut Chip) = |_| {};
    let kept = vec![Executed, Protected, LockFrozen, Protected];
    assert_eq!(attempt(0x03, stays), (kept, 0xFF));
    assert_eq!(attempt(0x01, stays), (vec![Executed, Protected, Executed, Executed], 0x34));
    assert_eq!(attempt(0x02, stays), (vec![Executed, Executed, LockFrozen, Executed], 0x34));
    let powers: [fn(&mut Chip); 2] =
        [|chip| chip.power_up(), |chip| chip.loss(&[0x00; PAGE], false)];
    for power in powers {
        assert_eq!(attempt(0x03, power), (vec![Executed; 4], 0x34));
    }
}
