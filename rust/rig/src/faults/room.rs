//! Deliberate faults of batches: what is refused, and what becomes of a refused one.

use crate::batch_model::*;
use crate::model::{self, Paper};

/// The refusals are looked at in another order.
pub struct RefusesInOrder(pub [u8; 5]);

impl BatchModel for RefusesInOrder {
    fn refusals(&self) -> [u8; 5] {
        self.0
    }
}

/// The buffers need another length than the paper says; what does not fit is lost.
pub struct Needs(pub fn(&[Item], [usize; 3]) -> [usize; 3]);

impl BatchModel for Needs {
    fn room(&self, items: &[Item]) -> [usize; 3] {
        self.0(items, Paper.room(items))
    }

    fn carry_out_all(
        &self,
        items: &[Item],
        record: &mut [u8],
        array: &mut [u8],
        buffers: &mut Buffers,
    ) -> Vec<model::Outcome> {
        let [responses, answers, _] = Paper.room(items);
        let (mut responses, mut answers) = (vec![0; responses], vec![0; answers]);
        let mut longer =
            Buffers { responses: &mut responses, answers: &mut answers, missing: &mut [] };
        let chip = Paper.carry_out_all(items, record, array, &mut longer);
        let lost = buffers.responses.iter_mut().zip(responses);
        lost.chain(buffers.answers.iter_mut().zip(answers)).for_each(|(lent, byte)| *lent = byte);
        chip
    }

    fn tell_missing(&self, sum: u64, missing: &mut [u8]) {
        missing.iter_mut().zip(sum.to_le_bytes()).for_each(|(lent, byte)| *lent = byte);
    }
}

/// Responses are as long as the batch.
pub fn all_bytes_of_the_items(items: &[Item], [_, answers, missing]: [usize; 3]) -> [usize; 3] {
    [written(items).len(), answers, missing]
}

/// Answers are as many as items without bytes would have.
pub fn a_third_of_the_items(items: &[Item], [responses, _, missing]: [usize; 3]) -> [usize; 3] {
    [responses, written(items).len() / HEAD, missing]
}

/// Waits need no answer byte.
pub fn answers_of_transactions_alone(
    items: &[Item],
    [responses, answers, missing]: [usize; 3],
) -> [usize; 3] {
    [responses, answers - items.iter().filter(|item| item.transaction().is_none()).count(), missing]
}

/// A batch without items needs no buffer.
pub fn nothing_for_no_items(items: &[Item], needed: [usize; 3]) -> [usize; 3] {
    needed.map(|length| if items.is_empty() { 0 } else { length })
}

/// The sum needs four bytes.
pub fn four_bytes_of_the_sum(_: &[Item], [responses, answers, _]: [usize; 3]) -> [usize; 3] {
    [responses, answers, 4]
}

/// Responses are not looked at.
pub fn any_responses(_: &[Item], [_, answers, missing]: [usize; 3]) -> [usize; 3] {
    [0, answers, missing]
}

/// Answers are not looked at.
pub fn any_answers(_: &[Item], [responses, _, missing]: [usize; 3]) -> [usize; 3] {
    [responses, 0, missing]
}

/// The bytes for the sum are not looked at.
pub fn any_sum(_: &[Item], [responses, answers, _]: [usize; 3]) -> [usize; 3] {
    [responses, answers, 0]
}

/// A buffer that is longer than needed is refused.
pub struct LongerIsRefused;

impl BatchModel for LongerIsRefused {
    fn too_short(&self, items: &[Item], buffers: &Buffers) -> bool {
        let Buffers { responses, answers, missing } = buffers;
        [responses.len(), answers.len(), missing.len()] != self.room(items)
    }
}

/// A batch refused with this number has its items carried out up to the bad one, or as far as they fit.
pub struct CarriesOutBefore(pub u8);

impl BatchModel for CarriesOutBefore {
    fn run(
        &self,
        record: &mut [u8],
        array: &mut [u8],
        bytes: &[u8],
        buffers: &mut Buffers,
    ) -> Outcome {
        let outcome = Paper.run(record, array, bytes, buffers);
        if outcome.word == u64::from(self.0) {
            let mut items = &outcome.day.items[..];
            while let ([before @ .., _], true) = (items, self.too_short(items, buffers)) {
                items = before;
            }
            self.carry_out_all(items, record, array, buffers);
        }
        outcome
    }
}
