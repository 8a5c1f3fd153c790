//! Deliberate faults of a bus: what a transaction does to others than the chosen chip, or they to it, and what it tells.

use super::amend;
use super::waits::{amend_all, left, unpacked, BUS_PAPER};
use crate::bus_model::*;
use crate::model::*;

/// A transaction of the paper, and then something more.
pub struct Afterwards(pub fn(&mut After));

/// A transaction that the chip answered, and what it was lent.
pub struct After<'a> {
    /// The row before it, and the chosen place.
    before: Vec<u8>,
    place: usize,
    row: &'a mut [u8],
    array: &'a mut [u8],
    t: Transaction<'a>,
    response: &'a mut [u8],
    outcome: &'a mut Outcome,
}

impl BusModel for Afterwards {
    fn transact(&self, buffers: &mut Buffers, chip: u32, t: Transaction) -> Outcome {
        let before = buffers.row.to_vec();
        let mut outcome = BUS_PAPER.transact(buffers, chip, t);
        if matches!(outcome.answer, 0 | 11..=19) {
            let Buffers { row, array, response } = buffers;
            let (place, outcome) = (chip as usize, &mut outcome);
            self.0(&mut After { before, place, row, array, t, response, outcome });
        }
        outcome
    }
}

impl After<'_> {
    /// Whether this code was executed.
    fn executed(&self, code: u8) -> bool {
        self.outcome.answer == 0 && self.t.sent[0] == code
    }

    /// Whether another chip was such.
    fn any_other(&self, such: impl Fn(&Record) -> bool) -> bool {
        let mut places = unpacked(&self.before).into_iter().enumerate();
        places.any(|(place, record)| place != self.place && such(&record))
    }

    /// The transaction is ignored with this number.
    fn ignore(&mut self, number: u8) {
        self.row.copy_from_slice(&self.before);
        self.response[..self.t.sent.len()].fill(0xFF);
        *self.outcome = Outcome::only(number);
    }

    /// The chosen record goes to a place.
    fn put(&mut self, place: usize) {
        let record = self.row[packed(self.place)].to_vec();
        self.row[packed(place)].copy_from_slice(&record);
    }

    /// Changes the other records.
    fn amend_others(&mut self, change: impl Fn(&mut Record)) {
        let chosen = self.place;
        amend_all(self.row, |place, record| {
            if place != chosen {
                change(record);
            }
        });
    }

    /// The bytes of the whole array from the chosen chip's address on, as a read drives them.
    fn read_from(&mut self, address: usize) {
        let driven = self.response[..self.t.sent.len()].iter_mut().skip(4);
        let from = Paper.begin(&self.before, self.place) + address;
        driven.enumerate().for_each(|(k, byte)| *byte = self.array[(from + k) % self.array.len()]);
    }
}

/// The record that a transaction leaves goes to the first place.
pub fn record_to_place_0(after: &mut After) {
    let place = after.place;
    after.put(0);
    if place > 0 {
        after.row[packed(place)].copy_from_slice(&after.before[packed(place)]);
    }
}

/// It goes to the next place as well.
pub fn record_to_the_next(after: &mut After) {
    let next = after.place + 1;
    if next < chips(after.row) {
        after.put(next);
    }
}

pub fn record_to_all(after: &mut After) {
    (0..chips(after.row)).for_each(|place| after.put(place));
}

pub fn record_stays(after: &mut After) {
    after.row.copy_from_slice(&after.before);
}

/// An instruction goes to all chips that are not busy, though one is chosen.
pub struct Reaches(pub u8);

impl BusModel for Reaches {
    fn transact(&self, buffers: &mut Buffers, chip: u32, t: Transaction) -> Outcome {
        let outcome = BUS_PAPER.transact(buffers, chip, t);
        if outcome.answer == 0 && t.sent[0] == self.0 {
            for place in (0..chips(buffers.row)).filter(|place| *place != chip as usize) {
                let (record, bytes) = Paper.lend(buffers.row, buffers.array, place);
                CHIP.transact(record, bytes, t, &mut vec![0; t.sent.len()]);
            }
        }
        outcome
    }
}

/// Chips that are not chosen lose their latch, unless they are busy.
pub fn others_lose_their_latch(after: &mut After) {
    after.amend_others(|record| record.latch &= left(record) > 0);
}

/// A tick passes for those that are not chosen.
pub fn others_tick(after: &mut After) {
    for place in (0..chips(after.row)).filter(|place| *place != after.place) {
        let (record, bytes) = Paper.lend(after.row, after.array, place);
        CHIP.wait(record, bytes, 1);
    }
}

/// The status is busy where any chip is.
pub fn status_of_any(after: &mut After) {
    if after.executed(RDSR) && after.any_other(|record| left(record) > 0) {
        after.response[..after.t.sent.len()].iter_mut().skip(1).for_each(|byte| *byte |= 1);
    }
}

/// One busy chip makes the bus busy.
pub fn busy_bus(after: &mut After) {
    let waits = after.outcome.answer == 0 && after.t.sent[0] != RDSR;
    if waits && after.any_other(|record| left(record) > 0) {
        after.ignore(12);
    }
}

/// One chip in deep power-down stops the others.
pub fn deep_bus(after: &mut After) {
    let released = after.outcome.answer == 0 && after.t.sent[0] != RES;
    if released && after.any_other(|record| record.mode == Mode::Deep) {
        after.ignore(13);
    }
}

/// Any chip's latch will do.
pub fn latch_of_any(after: &mut After) {
    if after.outcome.answer == 16 && after.any_other(|record| record.latch) {
        amend(&mut after.row[packed(after.place)], |record| record.latch = true);
        let (record, bytes) = Paper.lend(after.row, after.array, after.place);
        *after.outcome = CHIP.transact(record, bytes, after.t, after.response);
    }
}

/// The settings of any chip protect the chosen one.
pub fn protected_by_any(after: &mut After) {
    if after.executed(PP) && after.any_other(|record| record.bp > 0) {
        after.ignore(17);
    }
}

/// The first lock register of any chip protects the chosen one.
pub fn locked_by_any(after: &mut After) {
    if after.executed(PP) && after.any_other(|record| record.locks[0] & WRITE_LOCK != 0) {
        after.ignore(17);
    }
}

/// A read runs on into the next chip's bytes.
pub fn read_runs_on(after: &mut After) {
    if after.executed(READ) {
        let part = &PARTS[usize::from(after.before[packed(after.place)][0])];
        after.read_from(address(part, after.t.sent));
    }
}

/// An address above the chip's bytes reaches those of the next.
pub fn address_over_all(after: &mut After) {
    if after.executed(READ) {
        after.read_from(full_address(after.t.sent));
    }
}

/// A program is seen in the array before its cycle ends.
pub fn program_at_once(after: &mut After) {
    if after.executed(PP) {
        let mut record = after.row[packed(after.place)].to_vec();
        let (_, bytes) = Paper.lend(after.row, after.array, after.place);
        CHIP.power_up(&mut record, bytes);
    }
}

/// The whole response is written.
pub fn response_beyond_n(after: &mut After) {
    after.response[after.t.sent.len()..].fill(0xFF);
}

/// The first driven position counts the chips before.
pub fn first_from_the_row(after: &mut After) {
    if after.outcome.count > 0 {
        after.outcome.first += after.place;
    }
}

pub fn number_alone(after: &mut After) {
    *after.outcome = Outcome::only(after.outcome.answer);
}

pub fn missing_not_told(after: &mut After) {
    after.outcome.missing = 0;
}
