//! Deliberate faults of batches: all of them, and those of what is told of a batch.

use super::carried::*;
use super::items::*;
use super::named;
use super::room::*;
use crate::batch_model::*;
use crate::model::{self, Paper};

/// All of them.
pub const BATCH: &[(&str, &dyn BatchModel)] = named![
    // one or two bytes at the end are left alone
    EndsAt(Bad::Head),
    EndsAt(Bad::Body),
    EndsAt(Bad::Flag),
    EndsAt(Bad::Wait),
    Reads(cut_body_taken),
    Reads(longest_refused),
    Reads(wait_by_its_low_byte),
    Reads(wait_without_length),
    Lengths(high_byte_first),
    Lengths(low_byte_alone),
    Lengths(fifteen_bits),
    Means(seventeen_waits),
    Means(bit_four_waits),
    Means(high_bits_not_looked_at),
    Means(long_wait_is_sent),
    Means(longer_wait),
    Means(shorter_wait),
    Bits(w_in_bit_three),
    Bits(w_turned_over),
    Bits(w_high),
    Bits(pulses_in_two_bits),
    Bits(pulses_from_bit_zero),
    Ticks(highest_byte_first),
    Ticks(two_bytes_alone),
    Ticks(three_bytes_alone),
    // 9 is given before 2
    RefusesInOrder([8, 6, 9, 2, 10]),
    // 9 is given before 6
    RefusesInOrder([8, 9, 6, 2, 10]),
    // 9 is given before 8
    RefusesInOrder([9, 8, 6, 2, 10]),
    // 10 is given before 9
    RefusesInOrder([8, 6, 2, 10, 9]),
    // 10 is given before 2
    RefusesInOrder([8, 6, 10, 2, 9]),
    Needs(all_bytes_of_the_items),
    Needs(a_third_of_the_items),
    Needs(answers_of_transactions_alone),
    Needs(nothing_for_no_items),
    Needs(four_bytes_of_the_sum),
    Needs(any_responses),
    Needs(any_answers),
    Needs(any_sum),
    LongerIsRefused,
    CarriesOutBefore(9),
    CarriesOutBefore(10),
    Takes { responses: |item| own(item) + wait(item), answers: |_| 1 },
    Takes { responses: |item| own(item) + WAIT_BYTES * wait(item), answers: |_| 1 },
    Takes { responses: own, answers: |item| 1 - wait(item) },
    Takes { responses: own, answers: |item| own(item).min(1) + wait(item) },
    StopsAtTheFirstIgnored,
    Carries(record_from_before),
    Carries(array_from_before),
    Carries(responses_kept_where_ignored),
    Carries(answers_of_waits_kept),
    Sums(of_the_last_program),
    Sums(of_the_last_item),
    Sums(of_the_first_program),
    Sums(largest),
    Sums(programs_with_any),
    Sums(in_sixteen_bits),
    Sums(nothing),
    Tells(added),
    Tells(its_highest_byte_first),
    Tells(in_four_bytes),
    Tells(unless_zero),
    Afterwards(number_of_an_ignored_one),
    Afterwards(missing_in_the_answer),
    Afterwards(responses_beyond),
    Afterwards(answers_beyond),
    Afterwards(missing_beyond),
    Afterwards(refusal_clears_responses),
    Afterwards(refusal_clears_answers),
    Afterwards(refusal_clears_missing),
];

/// The bits missing in all are others.
struct Sums(fn(&[u32]) -> u64);

impl BatchModel for Sums {
    fn missing_in_all(&self, chip: &[model::Outcome]) -> u64 {
        let missing: Vec<u32> = chip.iter().map(|outcome| outcome.missing).collect();
        self.0(&missing)
    }
}

/// Of the programs with bits missing the last alone counts.
fn of_the_last_program(missing: &[u32]) -> u64 {
    missing.iter().rfind(|bits| **bits > 0).copied().unwrap_or(0).into()
}

/// The last item alone counts.
fn of_the_last_item(missing: &[u32]) -> u64 {
    missing.last().copied().unwrap_or(0).into()
}

/// Of the programs with bits missing the first alone counts.
fn of_the_first_program(missing: &[u32]) -> u64 {
    missing.iter().find(|bits| **bits > 0).copied().unwrap_or(0).into()
}

/// The largest number is told, not the sum.
fn largest(missing: &[u32]) -> u64 {
    missing.iter().max().copied().unwrap_or(0).into()
}

/// Programs with bits missing are counted, not the bits.
fn programs_with_any(missing: &[u32]) -> u64 {
    missing.iter().filter(|bits| **bits > 0).count() as u64
}

/// The sum wraps at 16 bits.
fn in_sixteen_bits(missing: &[u32]) -> u64 {
    missing.iter().sum::<u32>() as u64 % 0x1_0000
}

/// No bits missing are handed up.
fn nothing(_: &[u32]) -> u64 {
    0
}

/// The sum is written otherwise.
struct Tells(fn(u64, &mut [u8]));

impl BatchModel for Tells {
    fn tell_missing(&self, sum: u64, missing: &mut [u8]) {
        self.0(sum, missing);
    }
}

/// It is added to what stood there.
fn added(sum: u64, missing: &mut [u8]) {
    let stood = missing[..SUM_BYTES].iter().rev().fold(0, |sum, byte| sum << 8 | u64::from(*byte));
    Paper.tell_missing(stood.wrapping_add(sum), missing);
}

/// Its highest byte comes first.
fn its_highest_byte_first(sum: u64, missing: &mut [u8]) {
    Paper.tell_missing(sum.swap_bytes(), missing);
}

/// It is written in four bytes.
fn in_four_bytes(sum: u64, missing: &mut [u8]) {
    missing[..4].copy_from_slice(&(sum as u32).to_le_bytes());
}

/// It is not written where it is 0.
fn unless_zero(sum: u64, missing: &mut [u8]) {
    if sum != 0 {
        Paper.tell_missing(sum, missing);
    }
}

/// A batch of the paper, and then something more.
struct Afterwards(fn(&mut Outcome, &mut Buffers));

impl BatchModel for Afterwards {
    fn run(
        &self,
        record: &mut [u8],
        array: &mut [u8],
        bytes: &[u8],
        buffers: &mut Buffers,
    ) -> Outcome {
        let mut outcome = Paper.run(record, array, bytes, buffers);
        self.0(&mut outcome, buffers);
        outcome
    }
}

/// A number of the chip, 11 to 19, is the answer of the batch.
fn number_of_an_ignored_one(outcome: &mut Outcome, _: &mut Buffers) {
    let number = outcome.chip.iter().map(|one| one.answer).find(|answer| *answer != 0);
    outcome.word = number.map_or(outcome.word, u64::from);
}

/// The bits missing stand in the answer, too, as in that of a transaction.
fn missing_in_the_answer(outcome: &mut Outcome, _: &mut Buffers) {
    outcome.word |= Paper.missing_in_all(&outcome.chip) << 48;
}

/// Fills what lies beyond the room that the items need, of one that is carried out.
fn beyond(outcome: &Outcome, which: usize, buffer: &mut [u8], byte: u8) {
    if outcome.word == 0 {
        buffer[Paper.room(&outcome.day.items)[which]..].fill(byte);
    }
}

/// Responses are written behind the last one, too.
fn responses_beyond(outcome: &mut Outcome, buffers: &mut Buffers) {
    beyond(outcome, 0, buffers.responses, 0xFF);
}

/// Answers are written behind the last one, too.
fn answers_beyond(outcome: &mut Outcome, buffers: &mut Buffers) {
    beyond(outcome, 1, buffers.answers, 0);
}

/// The sum is longer than eight bytes.
fn missing_beyond(outcome: &mut Outcome, buffers: &mut Buffers) {
    beyond(outcome, 2, buffers.missing, 0);
}

/// A refusal fills the responses.
fn refusal_clears_responses(outcome: &mut Outcome, buffers: &mut Buffers) {
    if outcome.word != 0 {
        buffers.responses.fill(0xFF);
    }
}

/// A refusal clears the answers.
fn refusal_clears_answers(outcome: &mut Outcome, buffers: &mut Buffers) {
    if outcome.word != 0 {
        buffers.answers.fill(0);
    }
}

/// A refusal tells that no bits are missing.
fn refusal_clears_missing(outcome: &mut Outcome, buffers: &mut Buffers) {
    if outcome.word != 0 {
        buffers.missing.fill(0);
    }
}
