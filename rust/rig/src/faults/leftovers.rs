//! Deliberate faults of reports: what a refused one leaves, and what else is told.

use super::report::sum;
use crate::batch_model::BatchModel;
use crate::model::Paper;
use crate::report_model::*;

/// What a report is lent.
pub struct Place<'a, 'b> {
    record: &'a mut [u8],
    array: &'a mut [u8],
    buffers: &'a mut Buffers<'b>,
}

impl Place<'_, '_> {
    /// The items once more, on copies.
    fn trial(&self, outcome: &Outcome) -> Trial {
        let lent = (&*self.record, &*self.array);
        Trial::new(&Paper, &outcome.day.items, lent, self.buffers).expect("record and array lent")
    }

    /// Adds to the totals that are there, as long as there is a sum.
    fn add(&mut self, outcome: &Outcome, sum: fn(u64, u128) -> Option<u64>) {
        let totals = self.buffers.totals.chunks_exact_mut(NUMBER_BYTES);
        for (total, added) in totals.zip(&outcome.added) {
            let Some(sum) = sum(PAPER.number(total), *added) else { break };
            PAPER.tell(sum, total);
        }
    }
}

/// A report of the paper, and then something more.
pub struct Afterwards(pub fn(&mut Outcome, &mut Place));

impl ReportModel for Afterwards {
    fn run(
        &self,
        batch: &dyn BatchModel,
        record: &mut [u8],
        array: &mut [u8],
        bytes: &[u8],
        buffers: &mut Buffers,
    ) -> Outcome {
        let mut outcome = PAPER.run(batch, record, array, bytes, buffers);
        self.0(&mut outcome, &mut Place { record, array, buffers });
        outcome
    }
}

/// 10 is given for 71.
pub fn too_large_is_too_short(outcome: &mut Outcome, _: &mut Place) {
    outcome.word = if outcome.word == 71 { 10 } else { outcome.word };
}

/// 9 is given for 71.
pub fn too_large_is_bad(outcome: &mut Outcome, _: &mut Place) {
    outcome.word = if outcome.word == 71 { 9 } else { outcome.word };
}

/// 71 clears the totals.
pub fn too_large_clears_totals(outcome: &mut Outcome, place: &mut Place) {
    if outcome.word == 71 {
        place.buffers.totals.fill(0);
    }
}

/// 71 is found after the array was changed.
pub fn too_large_leaves_the_array(outcome: &mut Outcome, place: &mut Place) {
    if outcome.word == 71 {
        place.array.copy_from_slice(&place.trial(outcome).array);
    }
}

/// 71 is found after the record was changed.
pub fn too_large_leaves_the_record(outcome: &mut Outcome, place: &mut Place) {
    if outcome.word == 71 {
        place.record.copy_from_slice(&place.trial(outcome).record);
    }
}

/// 71 is found after the responses were written.
pub fn too_large_leaves_responses(outcome: &mut Outcome, place: &mut Place) {
    if outcome.word == 71 {
        place.buffers.responses.copy_from_slice(&place.trial(outcome).responses);
    }
}

/// 71 is found after the answers were written.
pub fn too_large_leaves_answers(outcome: &mut Outcome, place: &mut Place) {
    if outcome.word == 71 {
        place.buffers.answers.copy_from_slice(&place.trial(outcome).answers);
    }
}

/// With 71 what fits is added.
pub fn too_large_leaves_what_fits(outcome: &mut Outcome, place: &mut Place) {
    if outcome.word == 71 {
        place.add(outcome, |lent, added| sum(lent, added).or(Some(lent)));
    }
}

/// 71 is found while the totals are written, one after the other.
pub fn too_large_leaves_what_comes_before(outcome: &mut Outcome, place: &mut Place) {
    if outcome.word == 71 {
        place.add(outcome, sum);
    }
}

/// 71 is told, and the totals are added to.
pub fn too_large_is_told_and_wraps(outcome: &mut Outcome, place: &mut Place) {
    if outcome.word == 71 {
        place.add(outcome, |lent, added| Some(lent.wrapping_add(added as u64)));
    }
}

/// The items in front of a bad one count.
pub fn items_before_a_bad_one_count(outcome: &mut Outcome, place: &mut Place) {
    if outcome.word == 9 {
        place.add(outcome, sum);
    }
}

/// The items count, though a buffer is too short for them.
pub fn items_count_though_too_short(outcome: &mut Outcome, place: &mut Place) {
    if outcome.word == 10 {
        place.add(outcome, sum);
    }
}

/// A refusal clears the totals.
pub fn refusal_clears_totals(outcome: &mut Outcome, place: &mut Place) {
    if outcome.word != 0 {
        place.buffers.totals.fill(0);
    }
}

/// What lies beyond the totals is cleared.
pub fn totals_cleared_beyond(outcome: &mut Outcome, place: &mut Place) {
    if outcome.word == 0 {
        place.buffers.totals[TOTALS_BYTES..].fill(0);
    }
}

/// The bits missing stand in the first eight bytes, as a batch tells them.
pub fn missing_as_a_batch_tells(outcome: &mut Outcome, place: &mut Place) {
    if outcome.word == 0 {
        Paper.tell_missing(Paper.missing_in_all(&outcome.chip), place.buffers.totals);
    }
}

/// The bits missing stand in the answer, as in that of a transaction.
pub fn missing_in_the_answer(outcome: &mut Outcome, _: &mut Place) {
    outcome.word |= Paper.missing_in_all(&outcome.chip) << 48;
}

/// The driven bytes stand in the answer, as in that of a transaction.
pub fn driven_in_the_answer(outcome: &mut Outcome, _: &mut Place) {
    let driven: u64 = outcome.chip.iter().map(|one| one.count as u64).sum();
    outcome.word |= driven << 16;
}

/// A number of the chip, 11 to 19, is the answer of the report.
pub fn number_of_an_ignored_one(outcome: &mut Outcome, _: &mut Place) {
    let number = outcome.chip.iter().map(|one| one.answer).find(|answer| *answer != 0);
    outcome.word = number.map_or(outcome.word, u64::from);
}
