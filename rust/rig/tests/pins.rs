//! m25p_pins against the model, over all seven parts. RIG_RUNS and RIG_SEED make it longer or another.

#[path = "support/parts.rs"]
mod parts;

use m25p::{calls, Answer};
use parts::{assert_chip_often, assert_often, compared, sees, Plan, OFTEN, SEED};
use rig::compare::{Call, Pair, Rules, Seen, Source, Step, Tally, PAPER};
use rig::faults;
use rig::model::{Packed, RECORD_BYTES, SMALL};
use rig::number;
use rig::pins_generate::PinsGenerator;
use rig::pins_model::End;
use rig::plain_pins;
use rig::rng::Rng;
use tools::pins::Ends;

const DEFAULT_RUNS: u64 = 20_000;

/// Comparing the large arrays takes its time: they have fewer runs.
const PLAN: Plan = Plan { episode: [50, 50, 50, 20, 20, 50, 50], share: [40, 15, 10, 2, 1, 7, 25] };

#[test]
fn runs_equal_model() {
    let tally = compared::<PinsGenerator>("pins", number("RIG_RUNS", DEFAULT_RUNS), &PLAN);
    assert_often("answer", &tally.answers, [0, 2, 6, 8, 21, 23]);
    assert_chip_often(&tally.pins.chip, &tally.pins.executed);
    let ends = [tally.pins.carried_out, tally.pins.thrown_away, tally.pins.unfinished];
    assert!(ends.into_iter().all(|times| times >= OFTEN), "an end came too seldom");
    assert!(tally.pins.long_held >= OFTEN, "a long transaction was held too seldom");
    assert_eq!(tally.programs.seldom(OFTEN), [""; 0], "programs that came too seldom");
}

#[test]
fn faults_are_seen() {
    for (name, fault) in faults::SHORT {
        sees::<PinsGenerator>(name, Rules { pins: *fault, ..PAPER }, &PLAN, &[0], 200);
    }
}

/// A run on a chip: the packed record that it starts from, the step, its samples, and what the model saw.
struct Run<'a> {
    start: Packed,
    step: &'a Step,
    samples: &'a [u8],
    seen: Seen,
}

/// Random runs on chips of the small parts; each is looked at with the chip from before it and from behind
/// it.
fn each_run(count: u64, mut look: impl FnMut(&Pair, &Pair, Run)) {
    let seed = number("RIG_SEED", SEED);
    let mut seeds = Rng::new(seed);
    for part in SMALL {
        let mut generator = PinsGenerator::new(part, seeds.draw());
        let mut rng = Rng::new(seeds.draw());
        let mut pair = Pair::new(generator.sound_record(), PAPER, &mut rng);
        for _ in 0..count {
            let step = generator.step(&pair.record());
            let Call::Pins { samples } = &step.call else { panic!("a run") };
            let start = step.record.unwrap_or(pair.record().pack());
            let before = pair.clone();
            let seen = pair.step(&step, &mut Tally::default()).unwrap();
            look(&before, &pair, Run { start, step: &step, samples, seen });
        }
    }
}

/// Record and array after a run are those of the transactions found, given singly to m25p_transact, and the
/// bits missing in it are the sum of theirs.
#[test]
fn equals_single_transactions() {
    each_run(500, |before, after, run| {
        // a record of another part is put back behind the run
        if run.seen.answer() != 0 || run.start[0] != before.record().part {
            return;
        }
        let (mut record, mut array) = (run.start, before.real.array.clone());
        let (missing, mut singly) = (run.seen.missing(), 0);
        for found in run.seen.found {
            let End::Risen { w } = found.end else { continue };
            let (sent, w) = (found.sent(), u32::from(w));
            let mut response = vec![0; sent.len()];
            let array = &mut array[..run.step.array_len];
            let reply =
                calls::transact(&mut record, array, &sent, found.pulses(), w, &mut response);
            singly += reply.missing();
        }
        assert_eq!(missing, singly);
        assert_eq!(array, after.real.array);
        assert_eq!(record, after.real.record[..RECORD_BYTES]);
    });
}

/// The output of a run cut short is the beginning of the whole run's.
#[test]
fn no_output_depends_on_a_later_sample() {
    let mut rng = Rng::new(SEED);
    each_run(300, |before, after, run| {
        if run.seen.answer() != 0 {
            return;
        }
        for _ in 0..3 {
            let cut = rng.below(run.samples.len() + 1);
            let mut output = vec![9; cut];
            let mut array = before.real.array[..run.step.array_len].to_vec();
            let samples = &run.samples[..cut];
            let reply = calls::pins(&mut run.start.clone(), &mut array, samples, &mut output);
            assert_eq!((reply.answer(), reply.first(), reply.count()), (Answer::Executed, 0, 0));
            assert!([0, run.seen.missing()].contains(&reply.missing()));
            assert_eq!(output, after.real.filled[0][..cut]);
        }
    });
}

/// The plain program of the timing does the same work.
#[test]
fn plain_program_equals_model() {
    each_run(1_000, |before, after, run| {
        let mut plain = before.real.clone();
        plain.prepare(run.step);
        let (record, array, mut filled) = plain.lend(run.step);
        let (answer, missing) = plain_pins::run(record, array, run.samples, filled[0]);
        assert_eq!((answer, missing), (run.seen.answer(), run.seen.missing()));
        assert_eq!(plain.filled, after.modelled.filled);
        assert_eq!(plain.array, after.modelled.array);
        if answer == 0 && plain.record[0] == after.record().part {
            assert_eq!(plain.record, after.modelled.record);
        }
    });
}

/// The command `pins` counts the transactions, by how they end, as the model does.
#[test]
fn command_counts_as_the_model() {
    each_run(1_000, |_, _, run| {
        if run.seen.answer() != 0 {
            return;
        }
        let count = |ended: fn(End) -> bool| run.seen.found.iter().filter(|f| ended(f.end)).count();
        let ended = count(|end| matches!(end, End::Risen { .. }));
        let thrown_away = count(|end| end == End::ThrownAway);
        let unfinished = count(|end| end == End::Unfinished);
        assert_eq!(Ends::of(run.samples), Ends { ended, thrown_away, unfinished });
    });
}
