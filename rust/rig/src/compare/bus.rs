//! The comparison of a bus: one call is made to libm25p.a and to the model, and every byte of row, array and response is
//! compared, those around what is lent too. What a call must leave alone is looked at a second time, without the model.

mod tally;

pub use tally::Buses;

use std::ops::Range;

use m25p::{calls, Buffer};

use super::words::hex;
use super::{same, Filled, SPARE};
use crate::bus_generate::BusGenerator;
use crate::bus_model::{bytes, packed, records, sum, Buffers, BusModel, MOST_CHIPS};
use crate::model::{Packed, Record, Transaction, RECORD_BYTES};
use crate::rng::Rng;
use tally::Met;

/// The records that stand one behind the other, one more than a row may have.
pub const PLACES: usize = MOST_CHIPS + 1;

/// A call of a bus, with what it is sent.
#[derive(Clone, Debug)]
pub enum Call {
    Transact { chip: u32, sent: Vec<u8>, pulses: u32, w: u32 },
    Wait(u32),
}

/// A call with what it is lent: perhaps other records in some places first, the lengths that are named, and the
/// response.
pub struct Step {
    pub call: Call,
    pub records: Vec<(usize, Packed)>,
    pub row_len: usize,
    pub array_len: usize,
    pub response: Filled,
}

impl Step {
    /// The call in words.
    fn describe(&self, before: &Side) -> String {
        let call = match &self.call {
            Call::Transact { chip, sent, pulses, w } => {
                let (n, sent) = (sent.len(), hex(sent, 40));
                format!("transact chip {chip} n {n} {sent} pulses {pulses} w {w}")
            }
            Call::Wait(ticks) => format!("wait {ticks}"),
        };
        let row: Vec<String> =
            records(&before.row[before.front..]).map(|one| hex(one, 36)).collect();
        let Step { row_len, array_len, response, .. } = self;
        let (row, response) = (row.join(" "), response.len);
        format!("{call}, row_len {row_len}, array_len {array_len}, response_len {response}, {row}")
    }
}

/// The buffers of one side. Row and array begin behind some spare bytes.
#[derive(Clone)]
pub struct Side {
    front: usize,
    row: Vec<u8>,
    array: Buffer,
    response: Vec<u8>,
}

impl Side {
    /// Chips with these records and random contents, of which a call may be lent the first ones.
    pub fn new(chips: &[Record], rng: &mut Rng) -> Side {
        let front = rng.below(SPARE);
        let length: usize = chips.iter().map(|record| record.figures().bytes).sum();
        let mut row = rng.bytes(front + chips.len() * RECORD_BYTES + SPARE);
        for (place, record) in chips.iter().enumerate() {
            row[front..][packed(place)].copy_from_slice(&record.pack());
        }
        let array = Buffer::from(rng.bytes(front + length + SPARE));
        Side { front, row, array, response: vec![] }
    }

    /// The records in all places.
    pub fn records(&self) -> impl Iterator<Item = Option<Record>> + '_ {
        records(&self.row[self.front..]).map(Record::unpack)
    }

    /// The bytes from the beginning of the row on, and those from the beginning of the array on.
    pub fn row(&self) -> &[u8] {
        &self.row[self.front..]
    }

    pub fn array(&self) -> &[u8] {
        &self.array[self.front..]
    }

    pub fn response(&self) -> &[u8] {
        &self.response
    }

    /// The record and the bytes of the chip in this place.
    pub fn chip(&self, place: usize) -> (&[u8], &[u8]) {
        let record = &self.row()[packed(place)];
        (record, &self.array()[self.begin(place)..][..bytes(record)])
    }

    /// Puts another chip of the same part in this place.
    pub fn put(&mut self, place: usize, record: &[u8], bytes: &[u8]) {
        let begin = self.front + self.begin(place);
        self.row[self.front..][packed(place)].copy_from_slice(record);
        self.array[begin..begin + bytes.len()].copy_from_slice(bytes);
    }

    fn begin(&self, place: usize) -> usize {
        sum(&self.row()[..packed(place).start])
    }

    /// Puts in place what the step brings.
    pub fn prepare(&mut self, step: &Step) {
        for (place, record) in &step.records {
            self.row[self.front..][packed(*place)].copy_from_slice(record);
        }
        self.response.clone_from(&step.response.bytes);
    }

    /// Row, array and response, as long as the step names them.
    fn lend(&mut self, step: &Step) -> [&mut [u8]; 3] {
        let row = &mut self.row[self.front..][..step.row_len];
        let array = &mut self.array[self.front..][..step.array_len];
        [row, array, &mut self.response[..step.response.len]]
    }

    /// Makes the call of the library: the 64 bits.
    pub fn call(&mut self, step: &Step) -> u64 {
        let [row, array, response] = self.lend(step);
        let reply = match &step.call {
            Call::Transact { chip, sent, pulses, w } => {
                calls::bus_transact(row, array, *chip, sent, *pulses, *w, response)
            }
            Call::Wait(ticks) => calls::bus_wait(row, array, *ticks),
        };
        reply.bits()
    }

    /// Makes the call of the model with these rules.
    pub fn model_call(&mut self, step: &Step, rules: &dyn BusModel) -> u64 {
        let [row, array, response] = self.lend(step);
        let outcome = match &step.call {
            Call::Transact { chip, sent, pulses, w } => {
                let t = Transaction { sent, pulses: *pulses, w: *w };
                rules.transact(&mut Buffers { row, array, response }, *chip, t)
            }
            Call::Wait(ticks) => rules.wait(row, array, *ticks),
        };
        outcome.word()
    }

    /// Whether what a call with this answer must leave alone is as `before`, of row, array and response; else the first
    /// byte that is not, in words.
    pub fn stayed(&self, step: &Step, answer: u8, before: &Side) -> Result<(), String> {
        let [row, array, response] = changeable(step, answer);
        let shifted = |range: Range<usize>| self.front + range.start..self.front + range.end;
        same_but("row", &self.row, &before.row, shifted(row))?;
        same_but("array", &self.array, &before.array, shifted(array))?;
        same_but("response", &self.response, &before.response, response)
    }
}

/// The bytes of row, array and response that a call with this answer may change: an executed transaction the chosen
/// record, one that is not refused the response to what was sent, a wait that is carried out all that it is lent.
fn changeable(step: &Step, answer: u8) -> [Range<usize>; 3] {
    match (&step.call, answer) {
        (Call::Transact { chip, sent, .. }, 0) => [packed(*chip as usize), 0..0, 0..sent.len()],
        (Call::Transact { sent, .. }, 11..=19) => [0..0, 0..0, 0..sent.len()],
        (Call::Wait(_), 0) => [0..step.row_len, 0..step.array_len, 0..0],
        _ => [0..0, 0..0, 0..0],
    }
}

/// The first byte outside of a range that differs from before, if any, in words.
fn same_but(what: &str, now: &[u8], before: &[u8], but: Range<usize>) -> Result<(), String> {
    let told = |difference| format!("changed, and should not be: {difference}");
    same(what, 0, &now[..but.start], &before[..but.start]).map_err(told)?;
    same(what, but.end, &now[but.end..], &before[but.end..]).map_err(told)
}

/// Chips on a bus, on both sides, and as they were before the last call.
pub struct Pair<'a> {
    parts: Vec<u8>,
    rules: &'a dyn BusModel,
    pub real: Side,
    modelled: Side,
    before: Side,
}

impl<'a> Pair<'a> {
    /// Chips with these records and random contents.
    pub fn new(chips: &[Record], rules: &'a dyn BusModel, rng: &mut Rng) -> Pair<'a> {
        let parts = chips.iter().map(|record| record.part).collect();
        let real = Side::new(chips, rng);
        Pair { parts, rules, modelled: real.clone(), before: real.clone(), real }
    }

    /// The records between two calls, which are sound.
    pub fn records(&self) -> Vec<Record> {
        self.real.records().map(|record| record.expect("sound records between two calls")).collect()
    }

    /// Puts another chip of the same part in this place.
    pub fn put(&mut self, place: usize, record: &[u8], bytes: &[u8]) {
        for side in [&mut self.real, &mut self.modelled, &mut self.before] {
            side.put(place, record, bytes);
        }
    }

    /// Makes the call on both sides: the 64 bits, or the first difference in words.
    pub fn step(&mut self, step: &Step, tally: &mut Buses) -> Result<u64, String> {
        let row = self.real.row.clone();
        self.real.prepare(step);
        self.modelled.prepare(step);
        self.before.row.clone_from(&self.real.row);
        self.before.response.clone_from(&self.real.response);
        let (word, expected) = (self.real.call(step), self.modelled.model_call(step, self.rules));
        self.compare(step, word, expected)
            .map_err(|difference| format!("{difference}\nat {}", step.describe(&self.before)))?;
        tally.count(&Met::new(step, word, &self.before, &self.real));
        // Copying a large array takes its time: no other call has changed it.
        if matches!(step.call, Call::Wait(_)) && word == 0 {
            self.before.array.copy_from_slice(&self.real.array);
        }
        if !self.kept() {
            self.real.row.clone_from(&row);
            self.modelled.row = row;
        }
        Ok(word)
    }

    /// Whether all records are sound and of the parts that they were.
    fn kept(&self) -> bool {
        let parts = self.real.records().map(|record| record.map(|record| record.part));
        parts.eq(self.parts.iter().map(|part| Some(*part)))
    }

    fn compare(&self, step: &Step, word: u64, expected: u64) -> Result<(), String> {
        if word != expected {
            return Err(format!("answer {word:#x}, expected {expected:#x}"));
        }
        same("row", 0, &self.real.row, &self.modelled.row)?;
        same("response", 0, &self.real.response, &self.modelled.response)?;
        same("array", 0, &self.real.array, &self.modelled.array)?;
        self.real.stayed(step, word as u8, &self.before)
    }
}

/// An episode: a bus with these parts from random records on, and that many calls.
pub fn episode(
    parts: &[usize],
    calls: u64,
    seed: u64,
    rules: &dyn BusModel,
    tally: &mut Buses,
) -> Result<(), String> {
    let mut rng = Rng::new(seed);
    let mut generator = BusGenerator::new(parts, rng.draw());
    let mut pair = Pair::new(&generator.sound_records(), rules, &mut rng);
    for _ in 0..calls {
        let told = |difference| format!("parts {parts:?}, episode seed {seed}: {difference}");
        let step = generator.step(&pair.records());
        pair.step(&step, tally).map_err(told)?;
    }
    Ok(())
}
