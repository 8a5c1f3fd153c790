//! Deliberate faults of reports: all of them, and those of the sums and of what is refused.

use std::ops::Range;

use super::leftovers::*;
use super::named;
use super::totals::*;
use crate::batch_model::{BatchModel, Item};
use crate::report_model::*;

/// All of them; how items are read and carried out has its faults with the batches.
pub const REPORT: &[(&str, &dyn ReportModel)] = named![
    Lists(waits_too),
    Lists(of_some_bytes),
    Lists(executed_alone),
    Lists(up_to_an_ignored_one),
    Lists(all_but_the_last),
    Lists(all_but_the_first),
    Executes(whatever_the_answer),
    Executes(unless_unknown),
    Executes(nothing_is_zero),
    Executes(by_the_last_byte),
    Executes(by_the_response),
    Executes(but_status_reads),
    Executes(fast_reads_as_reads),
    Executes(page_writes_as_programs),
    Answers(by_the_first_byte),
    Answers(nothing_under_zero),
    Answers(nothing_is_unknown),
    Answers(ignored_alone),
    Answers(packed),
    Answers(in_four_bits),
    Drives(not_ff),
    Drives(sent),
    Drives(sent_where_executed),
    Drives(once),
    Drives(of_the_array),
    Drives(with_the_dummy_byte),
    Drives(in_a_byte),
    Drives(place_of_the_first),
    Drives(bits),
    Programs(by_page),
    Programs(not_reduced),
    Programs(in_64_sectors),
    Programs(within_alone),
    Programs(by_64_kilobytes),
    Programs(low_byte_first),
    Programs(by_its_end),
    Programs(from_the_highest),
    Programs(in_all),
    Programs(ignored_too),
    Programs(protected_too),
    Programs(without_the_latch_too),
    Programs(busy_too),
    Programs(page_writes_too),
    Programs(erases_too),
    Programs(page_erases_too),
    Programs(of_a_page_at_most),
    // totals are set, not added to
    Sums(|_, added| added.try_into().ok()),
    // 2^64 - 1 is refused
    Sums(|lent, added| sum(lent, added).filter(|sum| *sum < u64::MAX)),
    // a full total is refused, though nothing is added
    Sums(|lent, added| sum(lent, added).filter(|_| lent < u64::MAX)),
    // 2^64 is taken, and is 0
    Sums(|lent, added| sum(lent, added).or((lent.wrapping_add(added as u64) == 0).then_some(0))),
    // in 63 bits
    Sums(|lent, added| sum(lent, added).filter(|sum| *sum < 1 << 63)),
    // in the low half alone
    Sums(|lent, added| sum(lent, added).map(|_| half(lent, lent.wrapping_add(added as u64)))),
    // in the low sixteen bits alone
    Sums(|lent, added| sum(lent, added).map(|sum| lent >> 16 << 16 | sum & 0xFFFF)),
    // 1 at the most
    Sums(|lent, added| sum(lent, added.min(1))),
    // one more than there are
    Sums(|lent, added| sum(lent, if added > 0 { added + 1 } else { 0 })),
    Wraps(0..NUMBERS),
    Wraps(EXECUTED),
    Wraps(ANSWERS),
    Wraps(DRIVEN),
    Wraps(PROGRAMS),
    StaysFull(0..NUMBERS),
    StaysFull(EXECUTED),
    StaysFull(ANSWERS),
    StaysFull(DRIVEN),
    StaysFull(PROGRAMS),
    Forgets(EXECUTED),
    Forgets(ANSWERS),
    Forgets(DRIVEN),
    Forgets(PROGRAMS),
    // executed and answers in each other's place
    Places(|k| (k + NUMBERS - 32) % NUMBERS),
    // driven bytes behind the programs
    Places(|k| match k {
        288..352 => k + 1,
        352 => 288,
        _ => k,
    }),
    // each a number further on
    Places(|k| (k + NUMBERS - 1) % NUMBERS),
    HighByteFirst,
    RefusesInOrder([8, 6, 2, 9, 71, 10]),
    RefusesInOrder([8, 6, 2, 71, 9, 10]),
    RefusesInOrder([8, 6, 2, 10, 9, 71]),
    RefusesInOrder([8, 6, 9, 2, 10, 71]),
    RefusesInOrder([8, 9, 6, 2, 10, 71]),
    RefusesInOrder([9, 8, 6, 2, 10, 71]),
    RefusesInOrder([8, 6, 10, 2, 9, 71]),
    RefusesInOrder([8, 10, 6, 2, 9, 71]),
    RefusesInOrder([10, 8, 6, 2, 9, 71]),
    // any totals, a byte less, a number less, a byte for each number, four bytes for each
    Needs(|[responses, answers, _]| [responses, answers, 0]),
    Needs(|[responses, answers, totals]| [responses, answers, totals - 1]),
    Needs(|[responses, answers, totals]| [responses, answers, totals - 8]),
    Needs(|[responses, answers, _]| [responses, answers, NUMBERS]),
    Needs(|[responses, answers, totals]| [responses, answers, totals / 2]),
    Needs(|[_, answers, totals]| [0, answers, totals]),
    Needs(|[responses, _, totals]| [responses, 0, totals]),
    LongerIsRefused,
    Afterwards(too_large_is_too_short),
    Afterwards(too_large_is_bad),
    Afterwards(too_large_clears_totals),
    Afterwards(too_large_leaves_the_array),
    Afterwards(too_large_leaves_the_record),
    Afterwards(too_large_leaves_responses),
    Afterwards(too_large_leaves_answers),
    Afterwards(too_large_leaves_what_fits),
    Afterwards(too_large_leaves_what_comes_before),
    Afterwards(too_large_is_told_and_wraps),
    Afterwards(items_before_a_bad_one_count),
    Afterwards(items_count_though_too_short),
    Afterwards(refusal_clears_totals),
    Afterwards(totals_cleared_beyond),
    Afterwards(missing_as_a_batch_tells),
    Afterwards(missing_in_the_answer),
    Afterwards(driven_in_the_answer),
    Afterwards(number_of_an_ignored_one),
];

/// The sum of the paper.
pub fn sum(lent: u64, added: u128) -> Option<u64> {
    PAPER.sum(0, lent, added)
}

/// The high half of one number and the low half of another.
fn half(high: u64, low: u64) -> u64 {
    high >> 32 << 32 | low & 0xFFFF_FFFF
}

/// Sums are others.
struct Sums(fn(u64, u128) -> Option<u64>);

impl ReportModel for Sums {
    fn sum(&self, _: usize, lent: u64, added: u128) -> Option<u64> {
        self.0(lent, added)
    }
}

/// What does not fit wraps, of these numbers.
struct Wraps(Range<usize>);

impl ReportModel for Wraps {
    fn sum(&self, k: usize, lent: u64, added: u128) -> Option<u64> {
        let wrapped = self.0.contains(&k).then(|| lent.wrapping_add(added as u64));
        sum(lent, added).or(wrapped)
    }
}

/// What does not fit leaves the number full, of these.
struct StaysFull(Range<usize>);

impl ReportModel for StaysFull {
    fn sum(&self, k: usize, lent: u64, added: u128) -> Option<u64> {
        sum(lent, added).or(self.0.contains(&k).then_some(u64::MAX))
    }
}

/// Nothing is added to these.
struct Forgets(Range<usize>);

impl ReportModel for Forgets {
    fn sum(&self, k: usize, lent: u64, added: u128) -> Option<u64> {
        sum(lent, if self.0.contains(&k) { 0 } else { added })
    }
}

/// What is added to a number is added to another.
struct Places(fn(usize) -> usize);

impl ReportModel for Places {
    fn added(&self, items: &[Item], trial: &Trial) -> Vec<u128> {
        let added = PAPER.added(items, trial);
        (0..NUMBERS).map(|k| added[self.0(k)]).collect()
    }
}

/// The highest byte of a number comes first.
struct HighByteFirst;

impl ReportModel for HighByteFirst {
    fn number(&self, total: &[u8]) -> u64 {
        PAPER.number(total).swap_bytes()
    }

    fn tell(&self, sum: u64, total: &mut [u8]) {
        PAPER.tell(sum.swap_bytes(), total);
    }
}

/// The refusals are looked at in another order.
struct RefusesInOrder([u8; 6]);

impl ReportModel for RefusesInOrder {
    fn refusals(&self) -> [u8; 6] {
        self.0
    }
}

/// The buffers need other lengths than the paper says; what does not fit is lost.
struct Needs(fn([usize; 3]) -> [usize; 3]);

impl ReportModel for Needs {
    fn needed(&self, batch: &dyn BatchModel, items: &[Item]) -> [usize; 3] {
        self.0(PAPER.needed(batch, items))
    }
}

/// Totals that are longer than needed are refused.
struct LongerIsRefused;

impl ReportModel for LongerIsRefused {
    fn too_short(&self, batch: &dyn BatchModel, items: &[Item], buffers: &Buffers) -> bool {
        PAPER.too_short(batch, items, buffers) || buffers.totals.len() > TOTALS_BYTES
    }
}
