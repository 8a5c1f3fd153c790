//! The comparison: one call is made to libm25p.a and to the model, and every lent byte is compared.

mod batches;
pub mod bus;
mod ends;
pub mod images;
mod locks;
mod reports;
mod tally;
mod words;

pub use tally::Tally;

use std::ops::Range;

use m25p::{calls, Buffer};

use crate::batch_model::{BatchModel, Buffers, Day};
use crate::model::{self, address, Cycle, Mode, Model, Packed, Paper, Record, Transaction};
use crate::model::{PARTS, RECORD_BYTES};
use crate::pins_model::{Found, PinsModel};
use crate::report_model::{self, ReportModel};
use crate::rng::Rng;
use words::describe;

/// Bytes behind each buffer that no call may touch, and that longer lengths reach into.
pub const SPARE: usize = 16;

/// How much of either end of a large array is compared at each call.
const END: usize = 4_096;

/// On large parts all of the array is compared once in this many calls.
const INTERVAL: u64 = 1_000;

/// A call of the library, with what it is sent.
pub enum Call {
    Deliver { part: u32, durations: [u32; 4] },
    Transact { sent: Vec<u8>, pulses: u32, w: u32 },
    Wait(u32),
    PowerUp,
    Loss { mask: Vec<u8>, yes: u32 },
    Pins { samples: Vec<u8> },
    Batch { items: Vec<u8> },
    Report { items: Vec<u8> },
}

impl Call {
    /// The items of a batch or a report.
    pub fn items(&self) -> Option<&[u8]> {
        match self {
            Call::Batch { items } | Call::Report { items } => Some(items),
            _ => None,
        }
    }

    /// How long the buffers have to be that the call fills.
    pub fn room(&self) -> Vec<usize> {
        match self {
            Call::Transact { sent: given, .. } | Call::Pins { samples: given } => vec![given.len()],
            Call::Batch { items } => Paper.room(&Paper.day(items).items).to_vec(),
            Call::Report { items } => Paper.needed(&Paper, &Paper.day(items).items).to_vec(),
            _ => vec![],
        }
    }
}

/// A buffer that a call fills: its bytes before the call, more than are lent, and the length that is named.
pub struct Filled {
    pub bytes: Vec<u8>,
    pub len: usize,
}

/// A call with what it is lent: perhaps another record first, the lengths that are named, and the buffers
/// that it fills.
pub struct Step {
    pub call: Call,
    pub record: Option<Packed>,
    pub record_len: usize,
    pub array_len: usize,
    pub filled: Vec<Filled>,
}

/// What the model answers: the 64 bits, of raw pins what was found, of a batch or a report what was read, of all of them
/// the chip's answer to each transaction or item carried out, and of a report what is added to each number.
pub struct Seen {
    word: u64,
    pub found: Vec<Found>,
    pub day: Day,
    pub chip: Vec<model::Outcome>,
    pub added: Vec<u128>,
}

impl Seen {
    fn only(word: u64) -> Seen {
        Seen { word, found: vec![], day: Day::default(), chip: vec![], added: vec![] }
    }

    /// The 64 bits.
    pub fn word(&self) -> u64 {
        self.word
    }

    pub fn answer(&self) -> u8 {
        self.word as u8
    }

    /// The bits missing.
    pub fn missing(&self) -> u32 {
        (self.word >> 48) as u32
    }
}

/// The rules that the library is compared with.
#[derive(Clone, Copy)]
pub struct Rules {
    pub chip: &'static dyn Model,
    pub pins: &'static dyn PinsModel,
    pub batch: &'static dyn BatchModel,
    pub report: &'static dyn ReportModel,
}

/// The paper's.
pub const PAPER: Rules = Rules { chip: &Paper, pins: &Paper, batch: &Paper, report: &Paper };

/// The buffers of one side.
#[derive(Clone)]
pub struct Side {
    pub record: Vec<u8>,
    pub array: Buffer,
    pub filled: Vec<Vec<u8>>,
}

impl Side {
    /// A chip of the part with random contents, and the given record.
    pub fn new(start: Record, rng: &mut Rng) -> Side {
        let mut record = rng.bytes(RECORD_BYTES + SPARE);
        record[..RECORD_BYTES].copy_from_slice(&start.pack());
        let array = Buffer::from(rng.bytes(PARTS[start.part as usize].bytes + SPARE));
        Side { record, array, filled: vec![] }
    }

    /// Puts in place what the step brings.
    pub fn prepare(&mut self, step: &Step) {
        if let Some(record) = step.record {
            self.record[..RECORD_BYTES].copy_from_slice(&record);
        }
        self.filled = step.filled.iter().map(|filled| filled.bytes.clone()).collect();
    }

    /// Record, array and the buffers to be filled, as long as the step names them.
    pub fn lend(&mut self, step: &Step) -> (&mut [u8], &mut [u8], Vec<&mut [u8]>) {
        let filled = self.filled.iter_mut().zip(&step.filled);
        let filled = filled.map(|(bytes, named)| &mut bytes[..named.len]).collect();
        (&mut self.record[..step.record_len], &mut self.array[..step.array_len], filled)
    }

    /// Makes the call of the library: the 64 bits.
    pub fn call(&mut self, step: &Step) -> u64 {
        let (record, array, mut filled) = self.lend(step);
        let reply = match &step.call {
            Call::Deliver { part, durations } => {
                calls::deliver(record, *part, array, (*durations).into())
            }
            Call::Transact { sent, pulses, w } => {
                calls::transact(record, array, sent, *pulses, *w, filled[0])
            }
            Call::Wait(ticks) => calls::wait(record, array, *ticks),
            Call::PowerUp => calls::power_up(record, array),
            Call::Loss { mask, yes } => calls::loss(record, array, mask, *yes),
            Call::Pins { samples } => calls::pins(record, array, samples, filled[0]),
            Call::Batch { items } => {
                let Buffers { responses, answers, missing } = three(&mut filled);
                calls::batch(record, array, items, responses, answers, missing)
            }
            Call::Report { items } => {
                let Buffers { responses, answers, missing: totals } = three(&mut filled);
                calls::report(record, array, items, responses, answers, totals)
            }
        };
        reply.bits()
    }

    /// Makes the call of the model with these rules.
    pub fn model_call(&mut self, step: &Step, rules: Rules) -> Seen {
        let (record, array, mut filled) = self.lend(step);
        let Rules { chip, pins, batch, report } = rules;
        match &step.call {
            Call::Deliver { part, durations } => {
                Seen::only(chip.deliver(record, *part, array, *durations).word())
            }
            Call::Transact { sent, pulses, w } => {
                let t = Transaction { sent, pulses: *pulses, w: *w };
                Seen::only(chip.transact(record, array, t, filled[0]).word())
            }
            Call::Wait(ticks) => Seen::only(chip.wait(record, array, *ticks).word()),
            Call::PowerUp => Seen::only(chip.power_up(record, array).word()),
            Call::Loss { mask, yes } => Seen::only(chip.loss(record, array, mask, *yes).word()),
            Call::Pins { samples } => {
                let outcome = pins.run(record, array, samples, filled[0]);
                let word = outcome.word();
                Seen { found: outcome.found, chip: outcome.chip, ..Seen::only(word) }
            }
            Call::Batch { items } => {
                let outcome = batch.run(record, array, items, &mut three(&mut filled));
                Seen { day: outcome.day, chip: outcome.chip, ..Seen::only(outcome.word) }
            }
            Call::Report { items } => {
                let Buffers { responses, answers, missing: totals } = three(&mut filled);
                let mut buffers = report_model::Buffers { responses, answers, totals };
                let outcome = report.run(batch, record, array, items, &mut buffers);
                let report_model::Outcome { word, day, chip, added } = outcome;
                Seen { day, chip, added, ..Seen::only(word) }
            }
        }
    }
}

/// The three buffers that a batch or a report fills; the totals of a report are in the place of the bits missing.
fn three<'a>(filled: &'a mut [&mut [u8]]) -> Buffers<'a> {
    let [responses, answers, missing] = filled else { panic!("three buffers are filled") };
    Buffers { responses, answers, missing }
}

/// One chip on both sides.
#[derive(Clone)]
pub struct Pair {
    part: usize,
    rules: Rules,
    pub real: Side,
    pub modelled: Side,
}

impl Pair {
    /// A chip of the part with random contents, and the given record.
    pub fn new(start: Record, rules: Rules, rng: &mut Rng) -> Pair {
        let real = Side::new(start, rng);
        Pair { part: start.part as usize, rules, modelled: real.clone(), real }
    }

    /// The record between two calls, which is sound and of this part.
    pub fn record(&self) -> Record {
        self.kept().expect("a sound record between two calls")
    }

    fn kept(&self) -> Option<Record> {
        Record::unpack(&self.modelled.record[..RECORD_BYTES])
    }

    /// Makes the call on both sides: what the model saw, or the first difference in words.
    pub fn step(&mut self, step: &Step, tally: &mut Tally) -> Result<Seen, String> {
        let before = self.modelled.record.clone();
        self.real.prepare(step);
        self.modelled.prepare(step);
        let lent = self.kept();
        // The model goes first, so that the tally sees the array from before the call.
        let seen = self.modelled.model_call(step, self.rules);
        tally.count(step, &seen, &self.modelled.filled, &self.real.array);
        tally.batches.count(step, &seen, lent);
        tally.reports.count(step, &seen, lent);
        if let Some(lent) = lent.filter(|_| step.record_len == RECORD_BYTES) {
            tally.ends.count(step, &seen, &lent);
            tally.locks.count(step, &seen, &lent);
        }
        let word = self.real.call(step);
        let touched = self.touched(step, &seen, lent.and_then(|record| record.cycle()));
        self.compare(word, &seen, touched, tally.calls)
            .map_err(|difference| format!("{difference}\nat {}", describe(step, &before)))?;
        if self.kept().is_none_or(|record| record.part as usize != self.part) {
            self.real.record.clone_from(&before);
            self.modelled.record = before;
        }
        Ok(seen)
    }

    /// Compares all but the array, and of that the bytes that the call may have changed; of a small one all.
    fn compare(
        &self,
        word: u64,
        seen: &Seen,
        touched: Range<usize>,
        calls: u64,
    ) -> Result<(), String> {
        if word != seen.word {
            return Err(format!("answer {word:#x}, expected {:#x}", seen.word));
        }
        same("record", 0, &self.real.record, &self.modelled.record)?;
        for (real, modelled) in self.real.filled.iter().zip(&self.modelled.filled) {
            same("filled", 0, real, modelled)?;
        }
        let bytes = PARTS[self.part].bytes;
        if bytes <= 131_072 || calls % INTERVAL == 0 {
            return self.compare_array();
        }
        self.compare_window(0, END)?;
        self.compare_window(bytes - END, bytes + SPARE)?;
        self.compare_window(touched.start, touched.end)
    }

    /// The bytes of the array that a call may have changed, with the cycle of the record that it is lent; of a
    /// transaction the sector of its address, which stays.
    fn touched(&self, step: &Step, seen: &Seen, cycle: Option<Cycle>) -> Range<usize> {
        let part = &PARTS[self.part];
        let sector = |address: usize| {
            let start = address % part.bytes / part.sector_bytes * part.sector_bytes;
            start..start + part.sector_bytes
        };
        match (&step.call, cycle) {
            (Call::Pins { .. } | Call::Batch { .. } | Call::Report { .. }, _) => 0..part.bytes,
            (Call::Deliver { .. }, _) if seen.answer() == 0 => 0..part.bytes,
            (Call::Transact { sent, .. }, _) if sent.len() >= 4 => sector(address(part, sent)),
            (Call::Deliver { .. } | Call::Transact { .. }, _) => 0..0,
            (_, Some(Cycle::BulkErase)) if seen.answer() == 0 => 0..part.bytes,
            (_, cycle) => cycle.and_then(|cycle| cycle.address()).map_or(0..0, sector),
        }
    }

    /// All of the array.
    pub fn compare_array(&self) -> Result<(), String> {
        self.compare_window(0, self.real.array.len())
    }

    fn compare_window(&self, start: usize, end: usize) -> Result<(), String> {
        let (real, modelled) = (&self.real.array[start..end], &self.modelled.array[start..end]);
        same("array", start, real, modelled)
    }
}

/// The first byte that differs, if any, in words.
fn same(what: &str, start: usize, real: &[u8], expected: &[u8]) -> Result<(), String> {
    if real == expected {
        return Ok(());
    }
    let at = real.iter().zip(expected).position(|(a, b)| a != b).expect("equal lengths");
    let (got, wanted) = (real[at], expected[at]);
    Err(format!("{what} byte {}: {got:02X}, expected {wanted:02X}", start + at))
}

/// Where calls come from.
pub trait Source {
    fn new(part: usize, seed: u64) -> Self;

    /// A sound record of the part.
    fn sound_record(&mut self) -> Record;

    /// The next call for a chip whose record is `now`.
    fn step(&mut self, now: &Record) -> Step;
}

/// An episode: a chip of the part from a random record on, and that many calls.
pub fn episode<S: Source>(
    part: usize,
    calls: u64,
    seed: u64,
    rules: Rules,
    tally: &mut Tally,
) -> Result<(), String> {
    let mut rng = Rng::new(seed);
    let mut source = S::new(part, rng.draw());
    let mut pair = Pair::new(source.sound_record(), rules, &mut rng);
    let told = |e| format!("part {part}, episode seed {seed}: {e}");
    for _ in 0..calls {
        let step = source.step(&pair.record());
        pair.step(&step, tally).map_err(told)?;
    }
    pair.compare_array().map_err(told)
}
