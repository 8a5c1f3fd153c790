//! m25p_batch against the model, over all seven parts, and against the single calls. RIG_RUNS and RIG_SEED make it
//! longer or another.

#[path = "support/parts.rs"]
mod parts;

use m25p::calls;
use parts::{assert_chip_often, assert_often, compared, sees, Plan, OFTEN, SEED};
use rig::batch_generate::BatchGenerator;
use rig::batch_model::{written, Item};
use rig::compare::{Pair, Rules, Seen, Side, Source, Step, Tally, PAPER};
use rig::faults;
use rig::model::{PARTS, RECORD_BYTES, SMALL};
use rig::rng::Rng;
use rig::{number, tell};

const DEFAULT_RUNS: u64 = 40_000;

/// Comparing the large arrays takes its time: they have fewer batches.
const PLAN: Plan = Plan { episode: [50, 50, 50, 20, 20, 50, 50], share: [45, 12, 8, 1, 1, 8, 25] };

#[test]
fn batches_equal_model() {
    let tally = compared::<BatchGenerator>("batch", number("RIG_RUNS", DEFAULT_RUNS), &PLAN);
    assert_often("answer", &tally.answers, [0, 2, 6, 8, 9, 10]);
    assert_chip_often(&tally.batches.chip, &tally.batches.executed);
    assert_eq!(tally.batches.seldom(OFTEN), [""; 0], "what batches did too seldom");
    let waits = tally.batches.ends.seldom_waited(OFTEN, &PARTS[6]);
    assert_eq!(waits, [""; 0], "what became of cycles too seldom");
}

#[test]
fn faults_are_seen() {
    for (name, fault) in faults::BATCH {
        sees::<BatchGenerator>(name, Rules { batch: *fault, ..PAPER }, &PLAN, &[0], 200);
    }
}

/// A batch on a chip: the step, the chip before it with what the step brings, the same after it, and what the model
/// saw.
struct Batch<'a> {
    step: &'a Step,
    before: Side,
    after: Side,
    seen: Seen,
}

/// Random batches on chips of the small parts.
fn each_batch(count: u64, mut look: impl FnMut(Batch)) {
    let mut seeds = Rng::new(number("RIG_SEED", SEED));
    for part in SMALL {
        let mut generator = BatchGenerator::new(part, seeds.draw());
        let mut rng = Rng::new(seeds.draw());
        let mut pair = Pair::new(generator.sound_record(), PAPER, &mut rng);
        for _ in 0..count {
            let step = generator.step(&pair.record());
            let mut before = pair.real.clone();
            before.prepare(&step);
            let mut after = before.clone();
            let word = after.call(&step);
            let seen = pair.step(&step, &mut Tally::default()).unwrap();
            assert_eq!(word, seen.word());
            look(Batch { step: &step, before, after, seen });
        }
    }
}

/// Whether all bytes of the two are the same.
fn equal(one: &Side, other: &Side) -> bool {
    one.record == other.record && one.array == other.array && one.filled == other.filled
}

/// The item given singly, with a response of its own length: answer number, bits missing and response.
fn singly(item: &Item, record: &mut [u8], array: &mut [u8]) -> (u8, u64, Vec<u8>) {
    match item {
        Item::Transaction { sent, pulses, w } => {
            let mut response = vec![0; sent.len()];
            let reply = calls::transact(record, array, sent, *pulses, *w, &mut response);
            (reply.bits() as u8, u64::from(reply.missing()), response)
        }
        Item::Wait { ticks } => (calls::wait(record, array, *ticks).bits() as u8, 0, vec![]),
    }
}

/// What a batch leaves is what its items leave, given singly in order; behind that the buffers stay.
#[test]
fn equals_single_calls() {
    let mut compared = 0;
    each_batch(1_000, |batch| {
        if batch.seen.answer() != 0 {
            return;
        }
        let Batch { mut before, after, step, seen } = batch;
        let (mut responses, mut missing) = (0, 0);
        for (item, at) in seen.day.items.iter().zip(0..) {
            let array = &mut before.array[..step.array_len];
            let (answer, bits, response) = singly(item, &mut before.record[..RECORD_BYTES], array);
            before.filled[0][responses..][..response.len()].copy_from_slice(&response);
            before.filled[1][at] = answer;
            (responses, missing, compared) =
                (responses + response.len(), missing + bits, compared + 1);
        }
        before.filled[2][..8].copy_from_slice(&u64::to_le_bytes(missing));
        assert!(equal(&before, &after));
    });
    tell(&format!("batch: {compared} items equal single calls"));
    assert!(compared > 10_000);
}

/// A refused batch leaves every byte as it was.
#[test]
fn refused_changes_nothing() {
    let mut answers = [0; 11];
    each_batch(1_000, |Batch { before, after, seen, .. }| {
        assert!(seen.answer() == 0 || equal(&before, &after));
        answers[seen.answer() as usize] += 1;
    });
    let refused = [2, 6, 8, 9, 10].map(|number| answers[number]);
    tell(&format!("batch: nothing changed with 2, 6, 8, 9, 10: {refused:?}"));
    assert!(refused.into_iter().all(|times| times >= 20));
}

/// A batch on a side, with buffers just long enough that are filled with a byte; what it answers and leaves in them.
fn run(side: &mut Side, array_len: usize, items: &[Item], filling: u8) -> (u64, [Vec<u8>; 3]) {
    let responses = items.iter().map(|item| item.transaction().map_or(0, |t| t.sent.len())).sum();
    let [mut responses, mut answers, mut missing] =
        [responses, items.len(), 8].map(|n| vec![filling; n]);
    let (record, array) = (&mut side.record[..RECORD_BYTES], &mut side.array[..array_len]);
    let reply =
        calls::batch(record, array, &written(items), &mut responses, &mut answers, &mut missing);
    (reply.bits(), [responses, answers, missing])
}

/// Two batches one after the other leave what the batch of the appended bytes leaves.
#[test]
fn two_batches_are_one() {
    let mut rng = Rng::new(SEED);
    let mut parted = 0;
    each_batch(1_000, |Batch { before, step, seen, .. }| {
        let items = &seen.day.items;
        if seen.answer() != 0 || items.is_empty() {
            return;
        }
        let (mut whole, mut twice) = (before.clone(), before);
        let (first, then) = items.split_at(rng.below(items.len() + 1));
        let (word, [responses, answers, missing]) = run(&mut whole, step.array_len, items, 0x11);
        let of_first = run(&mut twice, step.array_len, first, 0x22);
        let of_then = run(&mut twice, step.array_len, then, 0x33);
        assert_eq!([word, of_first.0, of_then.0], [0; 3]);
        assert!(whole.record == twice.record && whole.array == twice.array);
        assert_eq!([&of_first.1[0][..], &of_then.1[0]].concat(), responses);
        assert_eq!([&of_first.1[1][..], &of_then.1[1]].concat(), answers);
        let sum = |bytes: &[u8]| u64::from_le_bytes(bytes.try_into().unwrap());
        assert_eq!(sum(&of_first.1[2]).wrapping_add(sum(&of_then.1[2])), sum(&missing));
        parted += 1;
    });
    assert!(parted > 1_000);
}
