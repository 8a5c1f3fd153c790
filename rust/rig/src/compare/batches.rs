//! What batches, and the batches of reports, did in a comparison: their items, what was wrong with a refused one, and the bits missing.

use super::ends::Ends;
use super::tally::{codes, listed, Counts};
use super::{Mode, Record, Seen, Step};
use crate::batch_model::{Bad, Item, HEAD, MOST_BYTES, WAIT, WAIT_BYTES};
use crate::model::{Outcome, READ};

/// A batch that was answered, and what it met.
struct Met<'a> {
    bytes: &'a [u8],
    seen: &'a Seen,
    /// By how much each of the three buffers is longer than needed.
    spare: [isize; 3],
    /// The record in front of each item and behind the last; none where the record lent is not sound.
    records: Vec<Record>,
}

impl<'a> Met<'a> {
    fn new(bytes: &'a [u8], step: &Step, seen: &'a Seen, lent: Option<Record>) -> Met<'a> {
        let room = step.call.room();
        let spare = [0, 1, 2].map(|which| step.filled[which].len as isize - room[which] as isize);
        let mut records: Vec<Record> = lent.into_iter().collect();
        for item in &seen.day.items {
            records.extend(records.last().copied().map(|now| item.follow(now)));
        }
        Met { bytes, seen, spare, records }
    }

    fn answered(&self, answer: u8) -> bool {
        self.seen.answer() == answer
    }

    /// The bytes from the bad item on, where the batch is refused for one of this kind.
    fn bad(&self, kind: Bad) -> Option<&[u8]> {
        let bad = self.seen.day.bad.filter(|(_, bad)| *bad == kind && self.answered(9));
        bad.map(|(at, _)| &self.bytes[at..])
    }

    /// Whether the bad item is of this kind, and these bytes and its length are such.
    fn is_bad(&self, kind: Bad, such: fn(&[u8], usize) -> bool) -> bool {
        let length = |rest: &[u8]| match rest {
            [low, high, ..] => HEAD + usize::from(u16::from_le_bytes([*low, *high])),
            _ => HEAD,
        };
        self.bad(kind).is_some_and(|rest| such(rest, length(rest)))
    }

    /// Whether the batch is refused with this number, and would be for a bad item.
    fn hides_bad(&self, answer: u8) -> bool {
        self.answered(answer) && self.seen.day.bad.is_some()
    }

    fn too_short(&self) -> bool {
        self.spare.iter().any(|spare| *spare < 0)
    }

    /// Whether the one buffer alone is too short, by one byte.
    fn short_by_one(&self, buffer: usize) -> bool {
        let others = (0..3).all(|other| other == buffer || self.spare[other] >= 0);
        self.answered(10) && self.spare[buffer] == -1 && others
    }

    /// Whether items that would change the record stand before the end, or before a bad one.
    fn would_change(&self) -> bool {
        self.records.windows(2).any(|two| two[0] != two[1])
    }

    /// The items carried out, each with the record in front of it and the chip's answer.
    fn carried_out(&self) -> impl Iterator<Item = (&Item, &Record, &Outcome)> {
        let items = self.seen.day.items.iter().zip(&self.records).zip(&self.seen.chip);
        items.map(|((item, record), outcome)| (item, record, outcome))
    }

    /// Whether a transaction of such a length was carried out.
    fn sent(&self, such: fn(usize) -> bool) -> bool {
        let lengths = self.carried_out().filter_map(|(item, ..)| item.transaction());
        lengths.into_iter().any(|t| such(t.sent.len()))
    }

    /// Whether such an item was carried out and, somewhere behind it, such another.
    fn in_turn(&self, first: fn(&Item, &Record, u8) -> bool, then: fn(&Item, u8) -> bool) -> bool {
        let mut rest =
            self.carried_out().skip_while(|(item, r, outcome)| !first(item, r, outcome.answer));
        rest.next().is_some() && rest.any(|(item, _, outcome)| then(item, outcome.answer))
    }

    /// The bits missing, of each program that was executed.
    fn missing(&self) -> impl DoubleEndedIterator<Item = u32> + '_ {
        self.seen.chip.iter().map(|outcome| outcome.missing).filter(|missing| *missing > 0)
    }

    fn missing_above(&self, bits: u32) -> bool {
        self.missing().sum::<u32>() > bits
    }
}

/// Whether it is a wait that ends a cycle.
fn ends_cycle(item: &Item, record: &Record, _: u8) -> bool {
    matches!((item, record.mode), (Item::Wait { ticks }, Mode::Busy(left, _)) if *ticks >= left)
}

/// Whether it is a read that was executed.
fn reads(item: &Item, answer: u8) -> bool {
    answer == 0 && item.transaction().is_some_and(|t| t.sent[0] == READ && t.sent.len() > 4)
}

/// What is counted.
type Event = (&'static str, fn(&Met) -> bool);

const EVENTS: [Event; 32] = [
    ("no items", |m| m.answered(0) && m.bytes.is_empty()),
    ("one byte left", |m| m.is_bad(Bad::Head, |rest, _| rest.len() == 1)),
    ("two bytes left", |m| m.is_bad(Bad::Head, |rest, _| rest.len() == 2)),
    ("a head alone", |m| m.is_bad(Bad::Body, |rest, _| rest.len() == HEAD)),
    ("an item short of a byte", |m| m.is_bad(Bad::Body, |rest, n| rest.len() == n - 1)),
    ("a transaction cut", |m| m.is_bad(Bad::Body, |rest, _| rest[2] < WAIT)),
    ("a wait cut", |m| m.is_bad(Bad::Body, |rest, _| rest[2] == WAIT)),
    ("a bad flag cut", |m| m.is_bad(Bad::Body, |rest, _| rest[2] > WAIT)),
    ("65,535 bytes cut", |m| m.is_bad(Bad::Body, |_, n| n == HEAD + MOST_BYTES)),
    ("flag 17", |m| m.is_bad(Bad::Flag, |rest, _| rest[2] == 17)),
    ("flag 18 to 31", |m| m.is_bad(Bad::Flag, |rest, _| (18..32).contains(&rest[2]))),
    ("a flag above 31", |m| m.is_bad(Bad::Flag, |rest, _| rest[2] > 31)),
    ("a wait of less than 4", |m| m.is_bad(Bad::Wait, |_, n| n < HEAD + WAIT_BYTES)),
    ("a wait of 5 to 255", |m| m.is_bad(Bad::Wait, |rest, n| n > HEAD + 4 && rest[1] == 0)),
    ("a wait of 4 by its low byte", |m| m.is_bad(Bad::Wait, |rest, _| rest[0] == 4)),
    ("bad behind what would change", |m| m.answered(9) && m.would_change()),
    ("bad, and too short", |m| m.answered(9) && m.too_short()),
    ("bad under 2", |m| m.hides_bad(2)),
    ("bad under 6", |m| m.hides_bad(6)),
    ("bad under 8", |m| m.hides_bad(8)),
    ("short of a response byte", |m| m.short_by_one(0) && m.would_change()),
    ("short of an answer byte", |m| m.short_by_one(1) && m.would_change()),
    ("short of a byte in the third buffer", |m| m.short_by_one(2) && m.would_change()),
    ("all buffers longer", |m| m.answered(0) && m.spare.iter().all(|spare| *spare > 0)),
    ("an item without bytes", |m| m.sent(|n| n == 0)),
    ("an item above 32,767 bytes", |m| m.sent(|n| n > 32_767)),
    ("an item of 65,535 bytes", |m| m.sent(|n| n == MOST_BYTES)),
    ("executed behind an ignored one", |m| m.in_turn(|_, _, n| n != 0, |_, n| n == 0)),
    ("read behind the end of a cycle", |m| m.in_turn(ends_cycle, reads)),
    ("bits missing in several items", |m| m.missing().count() > 1),
    ("above 2,048 bits missing", |m| m.missing_above(2_048)),
    ("above 65,535 bits missing", |m| m.missing_above(65_535)),
];

/// How often each came, with the chip's answers to the transactions, which instructions were executed, and how waits
/// met cycles.
pub struct Batches {
    pub transactions: u64,
    pub waits: u64,
    pub chip: Counts,
    pub executed: Counts,
    pub ends: Ends,
    events: [u64; EVENTS.len()],
}

impl Default for Batches {
    fn default() -> Batches {
        let (chip, executed, ends) = ([0; 256], [0; 256], Ends::default());
        Batches { transactions: 0, waits: 0, chip, executed, ends, events: [0; EVENTS.len()] }
    }
}

impl Batches {
    /// Counts a call, if it is a batch or a report, on a record that was lent.
    pub fn count(&mut self, step: &Step, seen: &Seen, lent: Option<Record>) {
        let Some(items) = step.call.items() else { return };
        let met = Met::new(items, step, seen, lent);
        for (times, (_, is)) in self.events.iter_mut().zip(EVENTS) {
            *times += u64::from(is(&met));
        }
        for (item, record, outcome) in met.carried_out() {
            match item {
                Item::Wait { ticks } => {
                    self.waits += 1;
                    self.ends.wait(*ticks, record);
                }
                Item::Transaction { sent, .. } => {
                    self.transactions += 1;
                    self.chip[outcome.answer as usize] += 1;
                    let executed = sent.first().filter(|_| outcome.answer == 0);
                    executed.into_iter().for_each(|code| self.executed[*code as usize] += 1);
                }
            }
        }
    }

    /// What came less than so many times.
    pub fn seldom(&self, times: u64) -> Vec<&'static str> {
        let seldom = EVENTS.into_iter().zip(self.events).filter(|(_, came)| *came < times);
        seldom.map(|((name, _), _)| name).collect()
    }

    pub fn show(&self) -> String {
        let came = EVENTS.into_iter().zip(self.events);
        let came: Vec<String> = came.map(|((name, _), times)| format!("{name} {times}")).collect();
        let Batches { transactions, waits, chip, executed, ends, .. } = self;
        let (chip, executed, ends) = (listed(chip), codes(executed), ends.show());
        format!(
            "{transactions} transactions, {waits} waits; the chip's numbers {chip}; executed {executed}; {ends}; \
             batches: {}",
            came.join(", ")
        )
    }
}
