//! A model of raw pins: what each sample does, the transactions found, and the output, plain and slow.
//!
//! As in the model of the chip each rule is a method; those of the pins alone are in `walk.rs`.

mod walk;

pub use walk::{End, Found, Holding, Pins, Walk, Walking};

use crate::model::{self, Model, Paper, Record, Transaction, RECORD_BYTES};

pub const SELECT: u8 = 0x01;
pub const CLOCK: u8 = 0x02;
pub const DATA: u8 = 0x04;
pub const W: u8 = 0x08;
pub const HOLD: u8 = 0x10;

/// The pins before the first sample.
pub const REST: u8 = SELECT | W | HOLD;

/// An output byte where the chip does not drive.
pub const NOT_DRIVEN: u8 = 2;

/// The most whole bytes of a transaction.
pub const MOST_BYTES: usize = 65_536;

/// What became of a run: its answer number, the bits missing, the transactions found, and the chip's answer
/// to each of those that were carried out. A refused run has none.
pub struct Outcome {
    pub answer: u8,
    pub missing: u32,
    pub found: Vec<Found>,
    pub chip: Vec<model::Outcome>,
}

impl Outcome {
    /// The answer as a C call carries it; nothing counts as driven.
    pub fn word(&self) -> u64 {
        model::Outcome { missing: self.missing, ..model::Outcome::only(self.answer) }.word()
    }

    /// The chip's answer numbers.
    pub fn numbers(&self) -> Vec<u8> {
        self.chip.iter().map(|outcome| outcome.answer).collect()
    }
}

/// The chip's answer to a transaction, if it was carried out.
pub type Answered = Option<model::Outcome>;

/// The rules of a run.
pub trait PinsModel: Walking {
    fn run(
        &self,
        record: &mut [u8],
        array: &mut [u8],
        samples: &[u8],
        output: &mut [u8],
    ) -> Outcome {
        let answer = self.refusal(record, array, samples, output);
        if answer != 0 {
            return Outcome { answer, missing: 0, found: vec![], chip: vec![] };
        }
        let walk = self.walk(samples);
        output[..samples.len()].fill(NOT_DRIVEN);
        let mut chip = Vec::new();
        for found in &walk.found {
            let now = Record::unpack(record).expect("a sound record");
            self.show(&walk, found, &now, array, output);
            chip.extend(self.carry_out(found, record, array));
        }
        Outcome { answer, missing: self.missing_in_all(&chip), found: walk.found, chip }
    }

    /// The bits missing in a run: those of all its transactions.
    fn missing_in_all(&self, chip: &[model::Outcome]) -> u32 {
        chip.iter().map(|outcome| outcome.missing).sum()
    }

    /// The number that refuses the run, the first that applies; 0 where it is carried out.
    fn refusal(&self, record: &[u8], array: &[u8], samples: &[u8], output: &[u8]) -> u8 {
        let applies = |number: &u8| match number {
            8 => record.len() != RECORD_BYTES,
            6 => Record::unpack(record).is_none(),
            2 => Record::unpack(record).is_some_and(|r| array.len() != r.figures().bytes),
            21 => self.odd(samples),
            22 => self.walk(samples).found.iter().any(|f| self.whole_bytes(f) > MOST_BYTES),
            _ => output.len() < samples.len(),
        };
        self.refusals().into_iter().find(applies).unwrap_or(0)
    }

    /// The numbers that refuse a run, in their order.
    fn refusals(&self) -> [u8; 6] {
        [8, 6, 2, 21, 22, 23]
    }

    /// Whether a sample has one of the bits 5 to 7 set.
    fn odd(&self, samples: &[u8]) -> bool {
        samples.iter().any(|sample| sample & 0xE0 != 0)
    }

    /// The whole bytes of a transaction, however it ended.
    fn whole_bytes(&self, found: &Found) -> usize {
        found.bits.len() / 8
    }

    /// The output of the samples in which this transaction ran.
    fn show(&self, walk: &Walk, found: &Found, r: &Record, array: &[u8], output: &mut [u8]) {
        let mut line = found.sent();
        line.push(0);
        let ran = output[found.from..found.to].iter_mut().zip(&walk.shown[found.from..]);
        for (byte, shown) in ran {
            let Some(m) = *shown else { continue };
            *byte = match drives_last(r, array, &line[..=m / 8]) {
                Some(driven) => self.bit(driven, m % 8),
                None => NOT_DRIVEN,
            };
        }
    }

    /// The bit of a driven byte that shows after k of its eight rises, most significant bit first.
    fn bit(&self, byte: u8, k: usize) -> u8 {
        byte >> (7 - k) & 1
    }

    /// Carries the transaction out, if Select rose outside a hold; the chip's answer.
    fn carry_out(&self, found: &Found, record: &mut [u8], array: &mut [u8]) -> Answered {
        let End::Risen { w } = found.end else { return None };
        let sent = found.sent();
        let mut response = vec![0; sent.len()];
        let t = Transaction { sent: &sent, pulses: found.pulses(), w: u32::from(w) };
        Some(Paper.transact(record, array, t, &mut response))
    }
}

impl PinsModel for Paper {}

/// What the chip drives during the last of these bytes; that byte itself does not matter.
pub fn drives_last(r: &Record, array: &[u8], sent: &[u8]) -> Option<u8> {
    if Paper.ignored(r, Transaction { sent, pulses: 0, w: 1 }) != 0 {
        return None;
    }
    Paper.driven(r, array, sent, sent.len() - 1)
}
