//! Deliberate faults of batches: how the items are carried out.

use crate::batch_model::*;
use crate::model::{self, Model, Paper, Record};

/// Items take other numbers of response and answer bytes.
pub struct Takes {
    pub responses: fn(&Item) -> usize,
    pub answers: fn(&Item) -> usize,
}

impl BatchModel for Takes {
    fn response_bytes(&self, item: &Item) -> usize {
        (self.responses)(item)
    }

    fn answer_bytes(&self, item: &Item) -> usize {
        (self.answers)(item)
    }
}

/// As many as the paper says.
pub fn own(item: &Item) -> usize {
    Paper.response_bytes(item)
}

/// 1 for a wait, 0 for a transaction.
pub fn wait(item: &Item) -> usize {
    usize::from(item.transaction().is_none())
}

/// What stands behind an item that is ignored is not carried out.
pub struct StopsAtTheFirstIgnored;

impl BatchModel for StopsAtTheFirstIgnored {
    fn carry_out_all(
        &self,
        items: &[Item],
        record: &mut [u8],
        array: &mut [u8],
        buffers: &mut Buffers,
    ) -> Vec<model::Outcome> {
        let mut now = Record::unpack(record).expect("a sound record");
        let ignored = items.iter().position(|item| {
            let before = now;
            now = item.follow(now);
            item.transaction().is_some_and(|t| Paper.ignored(&before, t) != 0)
        });
        let carried_out = ignored.map_or(items.len(), |at| at + 1);
        Paper.carry_out_all(&items[..carried_out], record, array, buffers)
    }
}

/// What an item is carried out on and what it fills, and record and array from before the batch.
pub struct Place<'a> {
    record: &'a mut [u8],
    array: &'a mut [u8],
    response: &'a mut [u8],
    answer: &'a mut u8,
    before: (&'a [u8], &'a mut [u8]),
}

/// Each item is carried out otherwise.
pub struct Carries(pub fn(&Item, &mut Place) -> model::Outcome);

impl BatchModel for Carries {
    fn carry_out_all(
        &self,
        items: &[Item],
        record: &mut [u8],
        array: &mut [u8],
        buffers: &mut Buffers,
    ) -> Vec<model::Outcome> {
        let (record_before, mut array_before) = (record.to_vec(), array.to_vec());
        let (mut responses, mut chip) = (0, Vec::new());
        for (item, answer) in items.iter().zip(buffers.answers.iter_mut()) {
            let response = &mut buffers.responses[responses..][..own(item)];
            responses += own(item);
            let before = (&record_before[..], &mut array_before[..]);
            chip.push(self.0(item, &mut Place { record, array, response, answer, before }));
        }
        chip
    }
}

/// As the paper has it.
fn carried_out(item: &Item, place: &mut Place) -> model::Outcome {
    let outcome = Paper.carry_out(item, place.record, place.array, place.response);
    *place.answer = outcome.answer;
    outcome
}

/// Each item meets the record from before the batch.
pub fn record_from_before(item: &Item, place: &mut Place) -> model::Outcome {
    place.record.copy_from_slice(place.before.0);
    carried_out(item, place)
}

/// Transactions meet the array from before the batch.
pub fn array_from_before(item: &Item, place: &mut Place) -> model::Outcome {
    if wait(item) == 1 {
        return carried_out(item, place);
    }
    let outcome = Paper.carry_out(item, place.record, place.before.1, place.response);
    *place.answer = outcome.answer;
    outcome
}

/// The response to a transaction that is ignored is not written.
pub fn responses_kept_where_ignored(item: &Item, place: &mut Place) -> model::Outcome {
    let kept = place.response.to_vec();
    let outcome = carried_out(item, place);
    if outcome.answer != 0 {
        place.response.copy_from_slice(&kept);
    }
    outcome
}

/// The answer byte of a wait is not written.
pub fn answers_of_waits_kept(item: &Item, place: &mut Place) -> model::Outcome {
    let kept = *place.answer;
    let outcome = carried_out(item, place);
    if wait(item) == 1 {
        *place.answer = kept;
    }
    outcome
}
