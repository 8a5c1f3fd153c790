//! Random reports: the days of random batches, with totals from none to those that what is added just fits in, or not.

use crate::batch_generate::{begins_with, BatchGenerator};
use crate::batch_model::BatchModel;
use crate::compare::{Call, Filled, Source, Step, SPARE};
use crate::model::{Model, Outcome, Paper, Record, Transaction};
use crate::report_model::{totals, Trial, PAPER};
use crate::report_model::{GROUPS, NUMBERS, NUMBER_BYTES, TOTALS_BYTES};
use crate::rng::Rng;

pub struct ReportGenerator {
    rng: Rng,
    batches: BatchGenerator,
}

/// Totals with a carry into a further byte near.
const CARRIES: [u64; 6] =
    [0xFF, 0xFFFF, 0xFF_FFFF, 0xFFFF_FFFF, 0xFF_FFFF_FFFF, 0x7FFF_FFFF_FFFF_FFFF];

impl Source for ReportGenerator {
    fn new(part: usize, seed: u64) -> ReportGenerator {
        let mut rng = Rng::new(seed);
        let batches = BatchGenerator::new(part, rng.draw());
        ReportGenerator { rng, batches }
    }

    fn sound_record(&mut self) -> Record {
        self.batches.sound_record()
    }

    /// A random batch as a report.
    fn step(&mut self, now: &Record) -> Step {
        let mut step = self.batches.step(now);
        let items = step.call.items().expect("a batch").to_vec();
        let added = added(begins_with(step.record, now), &items);
        step.filled[2] = self.lent(&added);
        Step { call: Call::Report { items }, ..step }
    }
}

/// What the items, up to a bad one, add to each number from this record on. None of it looks at the array.
pub fn added(from: Record, items: &[u8]) -> Vec<u64> {
    let items = Paper.day(items).items;
    let mut now = from;
    let chip = items.iter().map(|item| {
        let outcome = item.transaction().map_or(Outcome::only(0), |t| foreseen(&now, t));
        now = item.follow(now);
        outcome
    });
    let (record, chip, [responses, ..]) =
        (from.pack().to_vec(), chip.collect(), Paper.room(&items));
    let trial =
        Trial { record, array: vec![], responses: vec![0; responses], answers: vec![], chip };
    PAPER.added(&items, &trial).into_iter().map(|added| added as u64).collect()
}

/// What the chip answers to a transaction, the bits missing apart; what it drives is taken from a single byte.
fn foreseen(now: &Record, t: Transaction) -> Outcome {
    match Paper.ignored(now, t) {
        0 => Paper.drive(now, &[0xFF], t.sent, &mut vec![0; t.sent.len()]),
        number => Outcome::only(number),
    }
}

impl ReportGenerator {
    /// The buffer of the totals: as long as needed, longer, or now and then too short.
    fn lent(&mut self, added: &[u64]) -> Filled {
        let (behind, any) = (self.rng.below(40), self.rng.below(TOTALS_BYTES));
        let short = [TOTALS_BYTES - 1, TOTALS_BYTES - 1, TOTALS_BYTES - 8, NUMBERS, 8, 0, any];
        let len = match self.rng.below(12) {
            0 => self.rng.pick(&short),
            _ => TOTALS_BYTES + self.rng.pick(&[0, 0, 1, NUMBER_BYTES, behind]),
        };
        let mut bytes = totals(&self.totals(added));
        bytes.resize(len.max(TOTALS_BYTES) + SPARE, 0);
        self.rng.fill(&mut bytes[TOTALS_BYTES..]);
        bytes.truncate(len + SPARE);
        Filled { bytes, len }
    }

    /// Totals of a kind, and some of them near what they can hold.
    pub fn totals(&mut self, added: &[u64]) -> Vec<u64> {
        let kind = self.rng.below(6);
        let of_kind = |added: &u64| match kind {
            0 => 0,
            1 => self.rng.below(1_000) as u64,
            2 => self.rng.draw(),
            3 => self.rng.pick(&CARRIES).saturating_sub(added / 2),
            // all sums are as large as they can be
            _ => u64::MAX - added,
        };
        let mut totals: Vec<u64> = added.iter().map(of_kind).collect();
        for _ in 0..self.rng.pick(&[0, 0, 1, 1, 2, 3]) {
            let at = self.place(added);
            totals[at] = self.near(added[at]);
        }
        totals
    }

    /// The place of a number in a group, mostly of one that something is added to.
    fn place(&mut self, added: &[u64]) -> usize {
        let group = GROUPS[self.rng.below(GROUPS.len())].clone();
        let any = group.start + self.rng.below(group.len());
        let touched: Vec<usize> = group.filter(|at| added[*at] > 0).collect();
        if touched.is_empty() || self.rng.one_in(4) {
            return any;
        }
        self.rng.pick(&touched)
    }

    /// A total to which so much can just be added, or one or two less or more, or a full one.
    fn near(&mut self, added: u64) -> u64 {
        let most = u64::MAX - added;
        let more = self.rng.pick(&[1, 1, 2]);
        self.rng.pick(&[most, most, most - 1, most.saturating_add(more), u64::MAX, u64::MAX - 1])
    }
}
