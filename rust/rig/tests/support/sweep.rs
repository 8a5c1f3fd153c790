//! Steps of one's own choice on a chip of libm25p.a and on the model; a difference ends the test.

use rig::compare::{Call, Filled, Pair, Seen, Step, Tally, PAPER, SPARE};
use rig::model::{Packed, Record, PARTS, RECORD_BYTES};
use rig::rng::Rng;

/// A chip of a part, and the steps made on it.
pub struct Sweep {
    pub pair: Pair,
    pub rng: Rng,
    pub tally: Tally,
    array_len: usize,
}

impl Sweep {
    /// The part with random contents, in standby.
    pub fn new(part: u8) -> Sweep {
        let mut rng = Rng::new(part as u64);
        let pair = Pair::new(Record::standby(part), PAPER, &mut rng);
        let array_len = PARTS[part as usize].bytes;
        Sweep { pair, rng, tally: Tally::default(), array_len }
    }

    /// A call with all lengths right, from another packed record perhaps.
    pub fn call(&mut self, from: Option<Packed>, call: Call) -> Seen {
        self.call_lent(from, call, RECORD_BYTES, self.array_len)
    }

    /// A call with these lengths of record and array.
    pub fn call_lent(
        &mut self,
        record: Option<Packed>,
        call: Call,
        record_len: usize,
        array_len: usize,
    ) -> Seen {
        let filled = call.room();
        self.call_filling(record, call, [record_len, array_len], &filled)
    }

    /// A call with these lengths of record and array, and of the buffers that it fills.
    pub fn call_filling(
        &mut self,
        record: Option<Packed>,
        call: Call,
        [record_len, array_len]: [usize; 2],
        filled: &[usize],
    ) -> Seen {
        let random = |len: &usize| Filled { bytes: self.rng.bytes(len + SPARE), len: *len };
        let filled = filled.iter().map(random).collect();
        let step = Step { call, record, record_len, array_len, filled };
        self.pair.step(&step, &mut self.tally).unwrap_or_else(|difference| panic!("{difference}"))
    }

    /// The array has these bytes from this place on, on both sides.
    pub fn put(&mut self, at: usize, bytes: &[u8]) {
        for side in [&mut self.pair.real, &mut self.pair.modelled] {
            side.array[at..at + bytes.len()].copy_from_slice(bytes);
        }
    }
}

/// A code, a 24-bit address and data.
pub fn addressed(code: u8, address: usize, data: &[u8]) -> Vec<u8> {
    let mut sent = vec![code, (address >> 16) as u8, (address >> 8) as u8, address as u8];
    sent.extend(data);
    sent
}
