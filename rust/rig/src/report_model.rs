//! A model of reports: the items are carried out as a batch on copies of what is lent, each total is then found by itself
//! over the list of the transactions, in 128 bits, and where all sums fit the copies are taken over.
//!
//! As in the model of the chip each rule is a method. How items are read and carried out is the batch's model's own.

use std::ops::Range;

use crate::batch_model::{self, BatchModel, Day, Item};
use crate::model::{self, address, Model, Paper, Part, PARTS, PP};

/// The numbers: executed transactions by their first byte, answers by number, driven bytes, page programs by sector.
pub const EXECUTED: Range<usize> = 0..256;
pub const ANSWERS: Range<usize> = 256..288;
pub const DRIVEN: Range<usize> = 288..289;
pub const PROGRAMS: Range<usize> = 289..353;

/// The four one behind the other.
pub const GROUPS: [Range<usize>; 4] = [EXECUTED, ANSWERS, DRIVEN, PROGRAMS];

/// How many numbers there are, and their bytes.
pub const NUMBERS: usize = PROGRAMS.end;
pub const NUMBER_BYTES: usize = 8;
pub const TOTALS_BYTES: usize = NUMBERS * NUMBER_BYTES;

/// The buffers that a report fills.
pub struct Buffers<'a> {
    pub responses: &'a mut [u8],
    pub answers: &'a mut [u8],
    pub totals: &'a mut [u8],
}

/// A transaction that was carried out: what was sent, the response to it, and the chip's answer.
#[derive(Clone, Copy)]
pub struct Done<'a> {
    pub sent: &'a [u8],
    pub response: &'a [u8],
    pub chip: model::Outcome,
}

impl Done<'_> {
    /// Whether it was executed and began with this byte.
    pub fn executed(&self, code: u8) -> bool {
        self.chip.answer == 0 && self.sent.first() == Some(&code)
    }
}

/// What became of a report: the 64 bits, what was read, the chip's answer to each item, of a refused one none, and what
/// the transactions add to each number, none where record or array are refused.
pub struct Outcome {
    pub word: u64,
    pub day: Day,
    pub chip: Vec<model::Outcome>,
    pub added: Vec<u128>,
}

/// Items carried out on copies of what is lent.
pub struct Trial {
    pub record: Vec<u8>,
    pub array: Vec<u8>,
    pub responses: Vec<u8>,
    pub answers: Vec<u8>,
    pub chip: Vec<model::Outcome>,
}

impl Trial {
    /// The copies are long enough; there are none where record or array are refused.
    pub fn new(
        batch: &dyn BatchModel,
        items: &[Item],
        (record, array): (&[u8], &[u8]),
        buffers: &Buffers,
    ) -> Option<Trial> {
        Paper.lent(record, array).ok()?;
        let [responses, answers, _] = batch.room(items);
        let mut trial = Trial {
            record: record.to_vec(),
            array: array.to_vec(),
            responses: lengthened(buffers.responses, responses),
            answers: lengthened(buffers.answers, answers),
            chip: vec![],
        };
        let Trial { record, array, responses, answers, .. } = &mut trial;
        let mut filled = batch_model::Buffers { responses, answers, missing: &mut [] };
        trial.chip = batch.carry_out_all(items, record, array, &mut filled);
        Some(trial)
    }

    /// The copies become what is lent; what does not fit is lost.
    pub fn take_over(&self, record: &mut [u8], array: &mut [u8], buffers: &mut Buffers) {
        record.copy_from_slice(&self.record);
        array.copy_from_slice(&self.array);
        let Buffers { responses, answers, .. } = buffers;
        responses.copy_from_slice(&self.responses[..responses.len()]);
        answers.copy_from_slice(&self.answers[..answers.len()]);
    }

    fn part(&self) -> &'static Part {
        &PARTS[usize::from(self.record[0])]
    }
}

/// A copy, of so many bytes at least.
fn lengthened(bytes: &[u8], needed: usize) -> Vec<u8> {
    let mut copy = bytes.to_vec();
    copy.resize(needed.max(bytes.len()), 0);
    copy
}

/// The rules of a report.
pub trait ReportModel: Sync {
    fn run(
        &self,
        batch: &dyn BatchModel,
        record: &mut [u8],
        array: &mut [u8],
        bytes: &[u8],
        buffers: &mut Buffers,
    ) -> Outcome {
        let day = batch.day(bytes);
        let trial = Trial::new(batch, &day.items, (record, array), buffers);
        let added = trial.as_ref().map_or(vec![], |trial| self.added(&day.items, trial));
        let sums = self.sums(buffers.totals, &added);
        let lent = Paper.lent(record, array).err();
        let applies = |number: &u8| match number {
            9 => day.bad.is_some(),
            10 => self.too_short(batch, &day.items, buffers),
            71 => sums.is_none(),
            _ => lent == Some(*number),
        };
        let word = self.refusals().into_iter().find(applies).map_or(0, u64::from);
        match (trial, sums) {
            (Some(trial), Some(sums)) if word == 0 => {
                trial.take_over(record, array, buffers);
                let totals = buffers.totals.chunks_exact_mut(NUMBER_BYTES);
                totals.zip(sums).for_each(|(total, sum)| self.tell(sum, total));
                Outcome { word, day, chip: trial.chip, added }
            }
            _ => Outcome { word, day, chip: vec![], added },
        }
    }

    /// The numbers that refuse a report, in their order.
    fn refusals(&self) -> [u8; 6] {
        [8, 6, 2, 9, 10, 71]
    }

    /// Whether a buffer is too short for all items.
    fn too_short(&self, batch: &dyn BatchModel, items: &[Item], buffers: &Buffers) -> bool {
        let Buffers { responses, answers, totals } = buffers;
        let lengths = [responses.len(), answers.len(), totals.len()];
        lengths.into_iter().zip(self.needed(batch, items)).any(|(lent, needed)| lent < needed)
    }

    /// The bytes that the items need for responses and for answers, and those of the totals.
    fn needed(&self, batch: &dyn BatchModel, items: &[Item]) -> [usize; 3] {
        let [responses, answers, _] = batch.room(items);
        [responses, answers, TOTALS_BYTES]
    }

    /// What the items add to each number, in the numbers' order.
    fn added(&self, items: &[Item], trial: &Trial) -> Vec<u128> {
        let (part, all) = (trial.part(), self.transactions(items, trial));
        let count = |such: &dyn Fn(&Done) -> bool| all.iter().filter(|t| such(t)).count() as u128;
        let executed = (0..=255).map(|code| count(&|t| self.executed(t, code)));
        let answers = (0..32).map(|number| count(&|t| self.answered(t, number)));
        let driven = [all.iter().map(|t| self.driven(t)).sum()];
        let programs = (0..64).map(|sector| count(&|t| self.programmed(t, part, sector)));
        executed.chain(answers).chain(driven).chain(programs).collect()
    }

    /// The transactions with what became of them, in order; waits count nowhere.
    fn transactions<'a>(&self, items: &'a [Item], trial: &'a Trial) -> Vec<Done<'a>> {
        let mut responses = &trial.responses[..];
        let done = |(item, chip): (&'a Item, &model::Outcome)| {
            let sent = item.transaction()?.sent;
            let (response, rest) = responses.split_at(sent.len());
            responses = rest;
            Some(Done { sent, response, chip: *chip })
        };
        items.iter().zip(&trial.chip).filter_map(done).collect()
    }

    /// Whether it counts as executed with this first byte.
    fn executed(&self, t: &Done, code: u8) -> bool {
        t.executed(code)
    }

    /// Whether it counts under this answer number.
    fn answered(&self, t: &Done, number: u8) -> bool {
        t.chip.answer == number
    }

    /// The bytes that the chip drove, whatever they are.
    fn driven(&self, t: &Done) -> u128 {
        t.chip.count as u128
    }

    /// Whether it counts as a page program of this sector: the addressed byte lies in it.
    fn programmed(&self, t: &Done, part: &Part, sector: usize) -> bool {
        let begin = sector * part.sector_bytes;
        t.executed(PP) && (begin..begin + part.sector_bytes).contains(&address(part, t.sent))
    }

    /// The sums, of the numbers that are there; none where one does not fit.
    fn sums(&self, totals: &[u8], added: &[u128]) -> Option<Vec<u64>> {
        let numbers = totals.chunks_exact(NUMBER_BYTES).map(|total| self.number(total));
        numbers.zip(added).enumerate().map(|(k, (lent, added))| self.sum(k, lent, *added)).collect()
    }

    /// The sum in the k-th number, if 64 bits hold it.
    fn sum(&self, _k: usize, lent: u64, added: u128) -> Option<u64> {
        u64::try_from(u128::from(lent) + added).ok()
    }

    /// A number of the totals, little-endian.
    fn number(&self, total: &[u8]) -> u64 {
        total.iter().rev().fold(0, |number, byte| number << 8 | u64::from(*byte))
    }

    /// Writes a sum in the place of its total.
    fn tell(&self, sum: u64, total: &mut [u8]) {
        for (k, byte) in total.iter_mut().enumerate() {
            *byte = (sum >> (8 * k)) as u8;
        }
    }
}

impl ReportModel for Paper {}

/// The rules as the paper has them, of a report alone.
pub const PAPER: &dyn ReportModel = &Paper;

/// The numbers in the bytes of totals.
pub fn numbers(totals: &[u8]) -> Vec<u64> {
    totals.chunks_exact(NUMBER_BYTES).take(NUMBERS).map(|total| PAPER.number(total)).collect()
}

/// The bytes of these numbers.
pub fn totals(numbers: &[u64]) -> Vec<u8> {
    let mut bytes = vec![0; numbers.len() * NUMBER_BYTES];
    let each = bytes.chunks_exact_mut(NUMBER_BYTES).zip(numbers);
    each.for_each(|(total, number)| PAPER.tell(*number, total));
    bytes
}
