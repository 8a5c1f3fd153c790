//! What reports did in a comparison: which sums were large, which were too large, and what else a report refused for
//! them would have done.

use std::ops::Range;

use super::{Call, Record, Seen, Step};
use crate::batch_model::Item;
use crate::model::{full_address, PP};
use crate::report_model::{numbers, ANSWERS, DRIVEN, EXECUTED, NUMBERS, PROGRAMS, TOTALS_BYTES};

/// A total before it is added to, and what is added.
type Sum = (u64, u128);

/// A report that was answered, and what it met.
struct Met<'a> {
    step: &'a Step,
    seen: &'a Seen,
    lent: Option<Record>,
    /// By number, as far as the totals go; none where record or array are refused.
    sums: Vec<Sum>,
}

impl<'a> Met<'a> {
    fn new(step: &'a Step, seen: &'a Seen, lent: Option<Record>) -> Met<'a> {
        let totals = numbers(&step.filled[2].bytes[..step.filled[2].len]);
        let sums = totals.into_iter().zip(seen.added.iter().copied()).collect();
        Met { step, seen, lent, sums }
    }

    fn answered(&self, answer: u8) -> bool {
        self.seen.answer() == answer
    }

    /// The sums of these numbers that are such.
    fn such(&self, range: Range<usize>, such: fn(Sum) -> bool) -> usize {
        self.sums.iter().take(range.end).skip(range.start).filter(|sum| such(**sum)).count()
    }

    fn over(&self, range: Range<usize>) -> usize {
        self.such(range, |(lent, added)| u128::from(lent) + added > FULL)
    }

    /// Whether one number of these, and no other, does not fit.
    fn over_alone(&self, range: Range<usize>) -> bool {
        self.answered(71) && self.over(range) == 1 && self.over(0..NUMBERS) == 1
    }

    /// Whether one that something was added to is as large as it can be.
    fn brimming(&self, range: Range<usize>) -> bool {
        let brim = |(lent, added)| added > 0 && u128::from(lent) + added == FULL;
        self.answered(0) && self.such(range, brim) > 0
    }

    /// Whether a full one stayed, of a report with transactions.
    fn full(&self, range: Range<usize>) -> bool {
        let stayed = |(lent, added)| added == 0 && u128::from(lent) == FULL;
        self.answered(0) && !self.seen.chip.is_empty() && self.such(range, stayed) > 0
    }

    /// Whether a sum differs from its total above these bits.
    fn carries(&self, such: fn(Sum) -> bool) -> bool {
        self.answered(0) && self.such(0..NUMBERS, such) > 0
    }

    /// Whether it is refused with this number, and would be with 71.
    fn hides_over(&self, answer: u8) -> bool {
        self.answered(answer) && self.over(0..NUMBERS) > 0
    }

    /// Whether such a program was executed: the bytes of its part, its address as sent, and how much is sent.
    fn program(&self, such: fn(usize, usize, usize) -> bool) -> bool {
        let size = self.lent.map_or(1, |record| record.figures().bytes);
        self.programs(|answer| answer == 0).any(|sent| such(size, full_address(sent), sent.len()))
    }

    /// What was sent of the programs with such an answer.
    fn programs(&self, such: fn(u8) -> bool) -> impl Iterator<Item = &[u8]> {
        let done = self.seen.day.items.iter().zip(&self.seen.chip);
        let done = done.filter(move |(_, chip)| such(chip.answer));
        let sent = done.filter_map(|(item, _)| item.transaction().map(|t| t.sent));
        sent.filter(|sent| sent.first() == Some(&PP))
    }

    /// Sectors with an executed program.
    fn sectors(&self) -> usize {
        self.such(PROGRAMS, |(_, added)| added > 0)
    }

    /// Whether items refused with 71 would have changed the record.
    fn would_change(&self) -> bool {
        let behind = |record| self.seen.day.items.iter().fold(record, |now, item| item.follow(now));
        self.answered(71) && self.lent.is_some_and(|record| behind(record) != record)
    }

    fn waits_alone(&self) -> bool {
        let items = &self.seen.day.items;
        !items.is_empty() && items.iter().all(|item| matches!(item, Item::Wait { .. }))
    }

    fn length(&self) -> usize {
        self.step.filled[2].len
    }
}

/// The largest total.
const FULL: u128 = u64::MAX as u128;

/// What is counted.
type Event = (&'static str, fn(&Met) -> bool);

const EVENTS: [Event; 31] = [
    ("an executed total too large alone", |m| m.over_alone(EXECUTED)),
    ("an answer's total too large alone", |m| m.over_alone(ANSWERS)),
    ("driven bytes too many alone", |m| m.over_alone(DRIVEN)),
    ("a sector's total too large alone", |m| m.over_alone(PROGRAMS)),
    ("several too large", |m| m.answered(71) && m.over(0..NUMBERS) > 1),
    ("too large, and the record would change", |m| m.would_change()),
    ("too large, and a program", |m| m.answered(71) && m.sectors() > 0),
    ("an executed total as large as can be", |m| m.brimming(EXECUTED)),
    ("an answer's total as large as can be", |m| m.brimming(ANSWERS)),
    ("driven bytes as many as can be", |m| m.brimming(DRIVEN)),
    ("a sector's total as large as can be", |m| m.brimming(PROGRAMS)),
    ("an executed total full before", |m| m.full(EXECUTED)),
    ("an answer's total full before", |m| m.full(ANSWERS)),
    ("driven bytes full before", |m| m.full(DRIVEN)),
    ("a sector's total full before", |m| m.full(PROGRAMS)),
    ("too large under 9", |m| m.hides_over(9)),
    ("too large under 10", |m| m.hides_over(10)),
    ("totals of no bytes", |m| m.answered(10) && m.length() == 0),
    ("totals of a byte for each number", |m| m.answered(10) && m.length() == NUMBERS),
    ("totals a number short", |m| m.answered(10) && m.length() == TOTALS_BYTES - 8),
    ("totals a number longer", |m| m.answered(0) && m.length() == TOTALS_BYTES + 8),
    ("a carry in 16 bits", |m| m.carries(|(lent, added)| (lent as u8) as u128 + added > 0xFF)),
    ("a carry in 32 bits", |m| m.carries(|(lent, added)| (lent as u16) as u128 + added > 0xFFFF)),
    ("a carry beyond", |m| m.carries(|(lent, added)| (lent as u32) as u128 + added > 0xFFFF_FFFF)),
    ("waits alone", |m| m.answered(0) && m.waits_alone()),
    ("a program above the part's size", |m| m.program(|size, address, _| address >= size)),
    ("a program from its page's end", |m| m.program(|_, address, n| address % 256 + n > 260)),
    ("a program that was ignored", |m| m.programs(|answer| answer != 0).next().is_some()),
    ("a program in a protected sector", |m| m.programs(|answer| answer == 17).next().is_some()),
    ("programs in several sectors", |m| m.answered(0) && m.sectors() > 1),
    ("several in one sector", |m| m.answered(0) && m.such(PROGRAMS, |(_, added)| added > 1) > 0),
];

/// How often each came, and what was added to each number in all.
pub struct Reports {
    pub added: [u128; NUMBERS],
    events: [u64; EVENTS.len()],
}

impl Default for Reports {
    fn default() -> Reports {
        Reports { added: [0; NUMBERS], events: [0; EVENTS.len()] }
    }
}

impl Reports {
    /// Counts a call, if it is a report, on a record that was lent.
    pub fn count(&mut self, step: &Step, seen: &Seen, lent: Option<Record>) {
        if !matches!(step.call, Call::Report { .. }) {
            return;
        }
        let met = Met::new(step, seen, lent);
        for (times, (_, is)) in self.events.iter_mut().zip(EVENTS) {
            *times += u64::from(is(&met));
        }
        if seen.answer() == 0 {
            self.added.iter_mut().zip(&seen.added).for_each(|(sum, added)| *sum += added);
        }
    }

    /// What came less than so many times.
    pub fn seldom(&self, times: u64) -> Vec<&'static str> {
        let seldom = EVENTS.into_iter().zip(self.events).filter(|(_, came)| *came < times);
        seldom.map(|((name, _), _)| name).collect()
    }

    /// All counts, or nothing where there was no report.
    pub fn show(&self) -> String {
        if self.events == [0; EVENTS.len()] {
            return String::new();
        }
        let came = EVENTS.into_iter().zip(self.events);
        let came: Vec<String> = came.map(|((name, _), times)| format!("{name} {times}")).collect();
        let driven = self.added[DRIVEN.start];
        let sectors: Vec<u128> = self.added[PROGRAMS].iter().copied().filter(|n| *n > 0).collect();
        format!("; reports: driven {driven}, programs by sector {sectors:?}, {}", came.join(", "))
    }
}
