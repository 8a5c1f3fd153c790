//! Calls of one's own choice on a bus of libm25p.a and on the model; a difference ends the test.

use rig::bus_model::sum;
use rig::compare::bus::{Buses, Call, Pair, Step};
use rig::compare::{Filled, SPARE};
use rig::model::{Packed, Paper, Record, RECORD_BYTES};
use rig::rng::Rng;

/// Chips one behind the other, and the calls made on them.
pub struct Sweep {
    pub pair: Pair<'static>,
    pub rng: Rng,
    chips: usize,
}

/// A transaction with W high and without further pulses.
pub fn sent(chip: u32, bytes: &[u8]) -> Call {
    Call::Transact { chip, sent: bytes.to_vec(), pulses: 0, w: 1 }
}

impl Sweep {
    /// Chips with these records and random contents.
    pub fn new(records: &[Record]) -> Sweep {
        let mut rng = Rng::new(records.len() as u64);
        Sweep { pair: Pair::new(records, &Paper, &mut rng), rng, chips: records.len() }
    }

    /// A call on all chips, with all lengths right: the 64 bits.
    pub fn call(&mut self, call: Call) -> u64 {
        self.call_first(self.chips, call)
    }

    /// The same on the first chips.
    pub fn call_first(&mut self, chips: usize, call: Call) -> u64 {
        let array = sum(&self.pair.real.row()[..chips * RECORD_BYTES]);
        self.call_lent(vec![], call, [chips * RECORD_BYTES, array])
    }

    /// A call with other records first, and with these lengths of row and array.
    pub fn call_lent(
        &mut self,
        records: Vec<(usize, Packed)>,
        call: Call,
        lengths: [usize; 2],
    ) -> u64 {
        let response = match &call {
            Call::Transact { sent, .. } => sent.len(),
            Call::Wait(_) => 0,
        };
        self.call_filling(records, call, lengths, response)
    }

    /// The same, and with a response of this length.
    pub fn call_filling(
        &mut self,
        records: Vec<(usize, Packed)>,
        call: Call,
        [row_len, array_len]: [usize; 2],
        len: usize,
    ) -> u64 {
        let response = Filled { bytes: self.rng.bytes(len + SPARE), len };
        let step = Step { call, records, row_len, array_len, response };
        let word = self.pair.step(&step, &mut Buses::default());
        word.unwrap_or_else(|difference| panic!("{difference}"))
    }

    /// What the last transaction had as its response, of so many bytes.
    pub fn response(&self, n: usize) -> &[u8] {
        &self.pair.real.response()[..n]
    }

    /// The bytes of a chip.
    pub fn bytes(&self, place: usize) -> &[u8] {
        self.pair.real.chip(place).1
    }

    /// A chip's bytes become others, on both sides.
    pub fn put(&mut self, place: usize, bytes: &[u8]) {
        let record = self.pair.records()[place].pack();
        self.pair.put(place, &record, bytes);
    }
}
