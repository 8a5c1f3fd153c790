//! m25p_report against the model, over all seven parts. RIG_RUNS and RIG_SEED make it longer or another.

#[path = "support/parts.rs"]
mod parts;

use parts::{assert_chip_often, assert_often, compared, sees, Plan, OFTEN};
use rig::compare::{Rules, PAPER};
use rig::faults;
use rig::model::{PARTS, PP};
use rig::number;
use rig::report_generate::ReportGenerator;
use rig::report_model::{ANSWERS, DRIVEN, EXECUTED, PROGRAMS};

const DEFAULT_RUNS: u64 = 30_000;

/// Comparing the large arrays takes its time: they have fewer reports.
const PLAN: Plan = Plan { episode: [50, 50, 50, 10, 10, 50, 50], share: [55, 12, 5, 1, 1, 8, 18] };

#[test]
fn reports_equal_model() {
    let tally = compared::<ReportGenerator>("report", number("RIG_RUNS", DEFAULT_RUNS), &PLAN);
    assert_often("answer", &tally.answers, [0, 2, 6, 8, 9, 10, 71]);
    assert_chip_often(&tally.batches.chip, &tally.batches.executed);
    assert_eq!(tally.batches.seldom(OFTEN), [""; 0], "what batches did too seldom");
    assert_eq!(tally.reports.seldom(OFTEN), [""; 0], "what reports did too seldom");
    let waits = tally.batches.ends.seldom_waited(OFTEN, &PARTS[6]);
    assert_eq!(waits, [""; 0], "what became of cycles too seldom");
    // what was added agrees with what was counted singly
    let (added, batches) = (tally.reports.added, tally.batches);
    assert_eq!(added[ANSWERS].iter().sum::<u128>(), u128::from(batches.transactions));
    assert_eq!(added[EXECUTED].iter().sum::<u128>(), added[ANSWERS.start]);
    assert_eq!(added[PROGRAMS].iter().sum::<u128>(), added[usize::from(PP)]);
    assert!(added[DRIVEN.start] > 1_000_000);
}

#[test]
fn faults_are_seen() {
    for (name, fault) in faults::REPORT {
        sees::<ReportGenerator>(name, Rules { report: *fault, ..PAPER }, &PLAN, &[0, 6], 200);
    }
}

/// A report reads its items and carries them out by itself: what would be seen of a batch is seen of it.
#[test]
fn faults_of_batches_are_seen() {
    let kinds = ["EndsAt", "Reads", "Lengths", "Means", "Bits", "Ticks", "Takes", "StopsAt"];
    let others = [
        "Carries(record_from_before)",
        "Carries(array_from_before)",
        "Carries(responses_kept_where_ignored)",
        "Carries(answers_of_waits_kept)",
        "Needs(all_bytes_of_the_items)",
        "Needs(a_third_of_the_items)",
        "Needs(answers_of_transactions_alone)",
    ];
    let shared = |name: &str| kinds.iter().chain(&others).any(|begin| name.starts_with(begin));
    let shared: Vec<_> = faults::BATCH.iter().filter(|fault| shared(fault.0)).collect();
    assert_eq!(shared.len(), 37);
    for (name, fault) in shared {
        sees::<ReportGenerator>(name, Rules { batch: *fault, ..PAPER }, &PLAN, &[0], 200);
    }
}
