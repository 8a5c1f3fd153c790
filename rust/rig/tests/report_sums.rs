//! Reports of libm25p.a against each other and against m25p_batch: two of them and one of both files, files that are cut
//! at every byte, and weeks of files with refused ones between. RIG_SEED makes them others.

#[path = "support/days.rs"]
mod days;
#[path = "support/parts.rs"]
#[allow(dead_code)]
mod parts;
#[path = "support/reports.rs"]
#[allow(dead_code)]
mod reports;
#[path = "support/sweep.rs"]
#[allow(dead_code)]
mod swept;

use days::day;
use m25p::calls;
use parts::SEED;
use reports::{report, NONE};
use rig::batch_model::{written, Item};
use rig::compare::{Call, Pair, Seen, Side, Source, Step, Tally, PAPER};
use rig::model::{Record, PARTS, PP, RECORD_BYTES, SMALL};
use rig::report_generate::{added, ReportGenerator};
use rig::report_model::{numbers, totals, ANSWERS, NUMBERS, PROGRAMS, TOTALS_BYTES};
use rig::rng::Rng;
use rig::{number, tell};
use swept::Sweep;

/// A report on a chip: the step, the chip before it with what the step brings, the same after it, and what the model
/// saw.
struct Made<'a> {
    step: &'a Step,
    before: Side,
    after: Side,
    seen: Seen,
}

/// How many random reports a small part has: the larger of them fewer.
const REPORTS: [(usize, u64); 5] = [(0, 1_000), (1, 300), (2, 100), (5, 300), (6, 300)];

/// Random reports on chips of the small parts.
fn each_report(mut look: impl FnMut(Made)) {
    let mut seeds = Rng::new(number("RIG_SEED", SEED));
    for (part, count) in REPORTS {
        let mut generator = ReportGenerator::new(part, seeds.draw());
        let mut rng = Rng::new(seeds.draw());
        let mut pair = Pair::new(generator.sound_record(), PAPER, &mut rng);
        for _ in 0..count {
            let step = generator.step(&pair.record());
            let mut before = pair.real.clone();
            before.prepare(&step);
            let mut after = before.clone();
            let word = after.call(&step);
            let seen = pair.step(&step, &mut Tally::default()).unwrap();
            assert_eq!(word, seen.word());
            look(Made { step: &step, before, after, seen });
        }
    }
}

/// Whether record, array, responses and answers are the same.
fn equal_but_totals(one: &Side, other: &Side) -> bool {
    one.record == other.record && one.array == other.array && one.filled[..2] == other.filled[..2]
}

/// What a report leaves of record, array, responses and answers is what the batch of its items leaves.
#[test]
fn leaves_what_a_batch_leaves() {
    let (mut carried_out, mut too_large) = (0, 0);
    each_report(|Made { step, mut before, after, seen }| {
        let (array_len, record_len) = (step.array_len, step.record_len);
        let Side { record, array, filled } = &mut before;
        let [responses, answers, _] = &mut filled[..] else { panic!("three buffers") };
        let reply = calls::batch(
            &mut record[..record_len],
            &mut array[..array_len],
            step.call.items().unwrap(),
            &mut responses[..step.filled[0].len],
            &mut answers[..step.filled[1].len],
            &mut [0; 8],
        );
        match seen.answer() {
            0 => assert!(reply.bits() == 0 && equal_but_totals(&before, &after)),
            // a batch has no totals that are too short or too large
            10 => assert!(matches!(reply.bits(), 0 | 10)),
            71 => assert_eq!(reply.bits(), 0),
            number => assert_eq!(reply.bits(), u64::from(number)),
        }
        carried_out += u64::from(seen.answer() == 0);
        too_large += u64::from(seen.answer() == 71);
    });
    tell(&format!("report: {carried_out} as a batch, {too_large} refused with 71"));
    assert!(carried_out > 500 && too_large > 100);
}

/// A refused report leaves every byte as it was.
#[test]
fn refused_changes_nothing() {
    let mut answers = [0; 72];
    each_report(|Made { before, after, seen, .. }| {
        let stayed = equal_but_totals(&before, &after) && before.filled[2] == after.filled[2];
        assert!(seen.answer() == 0 || stayed);
        answers[usize::from(seen.answer())] += 1;
    });
    let refused = [2, 6, 8, 9, 10, 71].map(|number| answers[number]);
    tell(&format!("report: nothing changed with 2, 6, 8, 9, 10, 71: {refused:?}"));
    assert!(refused.into_iter().all(|times| times >= 20));
}

/// The totals are what they were, and of the transactions: the sum of the answers is their number, the sum of the
/// executed is the answer 0's, and that of the sectors is the programs'.
#[test]
fn sums_of_the_numbers() {
    let mut programs = 0;
    each_report(|Made { before, after, seen, .. }| {
        if seen.answer() != 0 {
            return;
        }
        let [before, after] = [before, after].map(|side| numbers(&side.filled[2]));
        let more: Vec<u64> =
            after.iter().zip(&before).map(|(after, before)| after - before).collect();
        let transactions =
            seen.day.items.iter().filter(|item| item.transaction().is_some()).count();
        assert_eq!(more[ANSWERS].iter().sum::<u64>(), transactions as u64);
        assert_eq!(more[..256].iter().sum::<u64>(), more[ANSWERS.start]);
        assert_eq!(more[PROGRAMS].iter().sum::<u64>(), more[usize::from(PP)]);
        programs += more[usize::from(PP)];
    });
    assert!(programs > 100);
}

/// A chip by itself, with the totals of its reports.
#[derive(Clone, PartialEq)]
struct Alone {
    record: Vec<u8>,
    array: Vec<u8>,
    totals: Vec<u8>,
}

impl Alone {
    /// The chip of a side.
    fn new(side: &Side, totals: &[u8]) -> Alone {
        let record = side.record[..RECORD_BYTES].to_vec();
        let array = side.array[..PARTS[usize::from(record[0])].bytes].to_vec();
        Alone { record, array, totals: totals.to_vec() }
    }

    /// A report with buffers just long enough: what it answers, the responses, and the answers.
    fn report(&mut self, items: &[Item]) -> (u64, [Vec<u8>; 2]) {
        let items = written(items);
        let room = Call::Report { items: items.clone() }.room();
        let (mut responses, mut answers) = (vec![0x11; room[0]], vec![0x22; room[1]]);
        let Alone { record, array, totals } = self;
        let reply = calls::report(record, array, &items, &mut responses, &mut answers, totals);
        (reply.bits(), [responses, answers])
    }
}

/// Two reports one after the other leave what the report of the appended files leaves, and add the sums of both; where
/// that is refused with 71, one of the two is.
#[test]
fn two_reports_are_one() {
    let mut rng = Rng::new(SEED);
    let (mut parted, mut too_large) = (0, 0);
    each_report(|Made { before, seen, .. }| {
        let items = &seen.day.items;
        if !matches!(seen.answer(), 0 | 71) || items.is_empty() {
            return;
        }
        let mut whole = Alone::new(&before, &before.filled[2][..TOTALS_BYTES]);
        let mut twice = whole.clone();
        let (first, then) = items.split_at(rng.below(items.len() + 1));
        let of_both = whole.report(items);
        let of_first = twice.report(first);
        let of_then = if of_first.0 == 0 { twice.report(then) } else { Default::default() };
        if of_both.0 == 71 {
            assert_eq!(of_first.0.max(of_then.0), 71);
            too_large += 1;
            return;
        }
        assert_eq!([of_both.0, of_first.0, of_then.0], [0; 3]);
        assert!(whole == twice);
        assert_eq!([&of_first.1[0][..], &of_then.1[0]].concat(), of_both.1[0]);
        assert_eq!([&of_first.1[1][..], &of_then.1[1]].concat(), of_both.1[1]);
        parted += 1;
    });
    tell(&format!("report: {parted} in two, and {too_large} that are too large"));
    assert!(parted > 500 && too_large > 100);
}

/// A file that is cut behind an item is a shorter one and counts for its items; cut elsewhere it is bad, and nothing
/// changes.
#[test]
fn every_cut() {
    for part in SMALL.map(|part| part as u8) {
        let mut sweep = Sweep::new(part);
        let (day, from) = (day(part), Record::standby(part));
        let items = written(&day);
        let ends: Vec<usize> = (0..=day.len()).map(|n| written(&day[..n]).len()).collect();
        for end in 0..=items.len() {
            let array = sweep.pair.real.array.clone();
            let (word, left) = report(&mut sweep, Some(from.pack()), &items[..end], &NONE);
            match ends.contains(&end) {
                true => assert_eq!((word, left), (0, added(from, &items[..end])), "{end}"),
                false => {
                    assert_eq!((word, left), (9, NONE.to_vec()), "{end}");
                    assert_eq!(sweep.pair.record(), from, "{end}");
                    assert!(sweep.pair.real.array == array, "{end}");
                }
            }
        }
        sweep.pair.compare_array().unwrap();
    }
}

/// A week of one chip: files in order, each from the state and the totals that the last one left; beside it a chip that
/// is not given those that are refused, and what the others add.
struct Week {
    pair: Pair,
    totals: Vec<u8>,
    alone: Alone,
    sums: Vec<u128>,
}

impl Week {
    fn new(start: Record, rng: &mut Rng) -> Week {
        let (pair, totals) = (Pair::new(start, PAPER, rng), totals(&NONE));
        let alone = Alone::new(&pair.real, &totals);
        Week { pair, totals, alone, sums: vec![0; NUMBERS] }
    }

    /// A file: whether it is carried out.
    fn file(&mut self, mut step: Step) -> bool {
        step.record = None;
        let length = self.totals.len().min(step.filled[2].bytes.len());
        step.filled[2].bytes[..length].copy_from_slice(&self.totals[..length]);
        let seen = self.pair.step(&step, &mut Tally::default()).unwrap();
        self.totals[..length].copy_from_slice(&self.pair.real.filled[2][..length]);
        if seen.answer() == 0 {
            self.sums.iter_mut().zip(&seen.added).for_each(|(sum, added)| *sum += added);
            assert_eq!(self.alone.report(&seen.day.items).0, 0);
        }
        seen.answer() == 0
    }
}

/// Refused files are as if they were not there, and the totals are the sums of the others.
#[test]
fn weeks() {
    let mut seeds = Rng::new(number("RIG_SEED", SEED));
    let (mut refused, mut carried_out) = (0, 0);
    for part in SMALL.repeat(30) {
        let mut generator = ReportGenerator::new(part, seeds.draw());
        let mut week = Week::new(generator.sound_record(), &mut Rng::new(seeds.draw()));
        let files = (0..20).map(|_| week.file(generator.step(&week.pair.record())));
        let good = files.filter(|good| *good).count();
        (carried_out, refused) = (carried_out + good, refused + 20 - good);
        assert!(numbers(&week.totals).into_iter().map(u128::from).eq(week.sums));
        assert!(week.alone == Alone::new(&week.pair.real, &week.totals));
    }
    tell(&format!("report: weeks of {carried_out} files, and {refused} refused between them"));
    assert!(carried_out > 1_000 && refused > 500);
}
