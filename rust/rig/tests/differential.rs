//! libm25p.a against the model, over all seven parts. RIG_CALLS and RIG_SEED make it longer or another.

#[path = "support/parts.rs"]
#[allow(dead_code)]
mod parts;

use m25p::Answer;
use parts::{assert_often, compared, sees, Plan, OFTEN};
use rig::compare::{Rules, PAPER};
use rig::faults;
use rig::generate::Generator;
use rig::model::{CODES, PARTS, SMALL};
use rig::number;

const DEFAULT_CALLS: u64 = 1_000_000;

/// Filling and comparing the large arrays takes its time: their episodes are longer.
const PLAN: Plan =
    Plan { episode: [500, 1_000, 2_000, 5_000, 25_000, 1_000, 2_000], share: [1; PARTS.len()] };

#[test]
fn calls_equal_model() {
    let tally = compared::<Generator>("differential", number("RIG_CALLS", DEFAULT_CALLS), &PLAN);
    // 9 and 10 are answers of batches, 21 to 23 of raw pins, 31 to 34 of images, 51 to 53 of a bus, 71 of reports: tests
    // of their own compare these.
    let answers = Answer::ALL.into_iter().map(Answer::number);
    let elsewhere = |answer: &u8| matches!(answer, 9 | 10 | 21..=23 | 31..=34 | 51..=53 | 71);
    let here = answers.filter(|answer| !elsewhere(answer));
    assert_often("answer", &tally.answers, here);
    assert_often("an executed instruction", &tally.executed, CODES);
    assert_eq!(tally.programs.seldom(OFTEN), [""; 0], "programs that came too seldom");
    assert_eq!(tally.ends.seldom(OFTEN, &PARTS[6]), [""; 0], "what became of cycles too seldom");
    assert_eq!(tally.locks.seldom(OFTEN), [""; 0], "what the M25PE40 did too seldom");
}

#[test]
fn faults_are_seen() {
    for (name, fault) in faults::CHIP.iter().chain(faults::M25PE40) {
        sees::<Generator>(name, Rules { chip: *fault, ..PAPER }, &PLAN, &SMALL, 50);
    }
}
