//! Deliberate faults of a bus: for which chips a wait is, and what it does to them.

use super::amend;
use crate::bus_model::*;
use crate::model::*;

/// The rules of a bus as the paper has them.
pub const BUS_PAPER: &dyn BusModel = &Paper;

/// The records of a row that is sound.
pub fn unpacked(row: &[u8]) -> Vec<Record> {
    records(row).map(|record| Record::unpack(record).expect("a sound record")).collect()
}

/// The ticks left of a cycle; 0 in none.
pub fn left(record: &Record) -> u32 {
    match record.mode {
        Mode::Busy(left, _) => left,
        _ => 0,
    }
}

/// Other ticks pass for each chip.
pub struct Waits(pub fn(&[Record], u32) -> Vec<u32>);

impl BusModel for Waits {
    fn ticks(&self, row: &[u8], ticks: u32) -> Vec<u32> {
        self.0(&unpacked(row), ticks)
    }
}

/// The ticks pass for those that are such, by place and record.
fn for_such(row: &[Record], ticks: u32, such: impl Fn(usize, &Record) -> bool) -> Vec<u32> {
    let each = row.iter().enumerate();
    each.map(|(place, record)| if such(place, record) { ticks } else { 0 }).collect()
}

pub fn first_alone(row: &[Record], ticks: u32) -> Vec<u32> {
    for_such(row, ticks, |place, _| place == 0)
}

pub fn last_alone(row: &[Record], ticks: u32) -> Vec<u32> {
    for_such(row, ticks, |place, _| place + 1 == row.len())
}

pub fn all_but_the_first(row: &[Record], ticks: u32) -> Vec<u32> {
    for_such(row, ticks, |place, _| place > 0 || row.len() == 1)
}

pub fn all_but_the_last(row: &[Record], ticks: u32) -> Vec<u32> {
    for_such(row, ticks, |place, _| place + 1 < row.len() || row.len() == 1)
}

pub fn up_to_the_first_idle(row: &[Record], ticks: u32) -> Vec<u32> {
    let idle = row.iter().position(|record| left(record) == 0).unwrap_or(row.len());
    for_such(row, ticks, |place, _| place < idle)
}

/// The chips behind the first that ends its cycle do not wait.
pub fn up_to_the_first_end(row: &[Record], ticks: u32) -> Vec<u32> {
    let ends = row.iter().position(|record| (1..=ticks).contains(&left(record)));
    for_such(row, ticks, |place, _| ends.is_none_or(|ends| place <= ends))
}

pub fn first_busy_alone(row: &[Record], ticks: u32) -> Vec<u32> {
    let busy = row.iter().position(|record| left(record) > 0);
    for_such(row, ticks, |place, _| Some(place) == busy)
}

/// Nothing passes where a chip is in deep power-down.
pub fn no_deep(row: &[Record], ticks: u32) -> Vec<u32> {
    for_such(row, ticks, |_, _| row.iter().all(|record| record.mode != Mode::Deep))
}

/// The wait is over when the first cycle ends.
pub fn until_the_first_end(row: &[Record], ticks: u32) -> Vec<u32> {
    let first = row.iter().map(left).filter(|left| *left > 0).min();
    vec![ticks.min(first.unwrap_or(ticks)); row.len()]
}

/// What one chip needs is gone for the next.
pub fn one_after_the_other(row: &[Record], mut ticks: u32) -> Vec<u32> {
    let mut each = vec![];
    for record in row {
        each.push(ticks);
        ticks -= ticks.min(left(record));
    }
    each
}

/// Cycles that do not end keep their ticks.
pub fn ending_ones_alone(row: &[Record], ticks: u32) -> Vec<u32> {
    for_such(row, ticks, |_, record| left(record) <= ticks)
}

/// A wait of the paper, and then something more.
pub struct Waited(pub fn(&mut AfterWait));

/// A wait that was carried out.
pub struct AfterWait<'a> {
    ticks: u32,
    before: (Vec<u8>, Vec<u8>),
    row: &'a mut [u8],
    array: &'a mut [u8],
    outcome: &'a mut Outcome,
}

impl BusModel for Waited {
    fn wait(&self, row: &mut [u8], array: &mut [u8], ticks: u32) -> Outcome {
        let before = (row.to_vec(), array.to_vec());
        let mut outcome = BUS_PAPER.wait(row, array, ticks);
        if outcome.answer == 0 {
            self.0(&mut AfterWait { ticks, before, row, array, outcome: &mut outcome });
        }
        outcome
    }
}

impl AfterWait<'_> {
    /// The cycles that ended.
    fn ended(&self) -> Vec<Cycle> {
        let before = unpacked(&self.before.0).into_iter();
        before.filter(|one| left(one) <= self.ticks).filter_map(|one| one.cycle()).collect()
    }
}

pub fn records_alone(after: &mut AfterWait) {
    after.array.copy_from_slice(&after.before.1);
}

pub fn bytes_alone(after: &mut AfterWait) {
    after.row.copy_from_slice(&after.before.0);
}

pub fn bulk_erases_all(after: &mut AfterWait) {
    if after.ended().contains(&Cycle::BulkErase) {
        after.array.fill(0xFF);
    }
}

pub fn ends_are_told(after: &mut AfterWait) {
    after.outcome.count = after.ended().len();
}

/// SRWD that is written goes to all chips.
pub fn settings_reach_all(after: &mut AfterWait) {
    for cycle in after.ended() {
        if let Cycle::Settings { srwd, .. } = cycle {
            amend_all(after.row, |_, record| record.srwd = srwd);
        }
    }
}

/// Changes the records of a row, each with its place.
pub fn amend_all(row: &mut [u8], change: impl Fn(usize, &mut Record)) {
    for (place, packed) in row.chunks_exact_mut(RECORD_BYTES).enumerate() {
        amend(packed, |record| change(place, record));
    }
}

/// A wait finds a record that is not sound when it comes to it.
pub struct RefusesOnTheWay;

impl BusModel for RefusesOnTheWay {
    fn wait(&self, row: &mut [u8], array: &mut [u8], ticks: u32) -> Outcome {
        let outcome = BUS_PAPER.wait(row, array, ticks);
        let good = records(row).take_while(|record| sound(record)).count();
        if outcome.answer == 6 {
            wait_for(row, array, good, ticks);
        }
        outcome
    }
}

/// A wait that is refused for its array is carried out for those chips whose bytes are there.
pub struct WaitsAsFarAsBytesGo;

impl BusModel for WaitsAsFarAsBytesGo {
    fn wait(&self, row: &mut [u8], array: &mut [u8], ticks: u32) -> Outcome {
        let outcome = BUS_PAPER.wait(row, array, ticks);
        if outcome.answer == 53 {
            wait_for(row, array, chips(row), ticks);
        }
        outcome
    }
}

/// The first chips wait.
fn wait_for(row: &mut [u8], array: &mut [u8], chips: usize, ticks: u32) {
    for place in 0..chips {
        let (record, bytes) = Paper.lend(row, array, place);
        CHIP.wait(record, bytes, ticks);
    }
}
