//! Random batches: days that have something to do in the states they meet, whole or damaged, with buffers of all
//! lengths.

use crate::batch_model::*;
use crate::compare::{Call, Filled, Source, Step, SPARE};
use crate::generate::Generator;
use crate::model::*;
use crate::rng::Rng;

pub struct BatchGenerator {
    rng: Rng,
    calls: Generator,
}

/// Flag bytes that are none, or the wrong one.
const FLAGS: [u8; 14] = [15, 16, 17, 17, 18, 19, 24, 31, 32, 33, 48, 128, 144, 255];

/// Lengths that a wait does not have; the last three have a 4 in one of their bytes.
const WAITS: [usize; 10] = [0, 1, 2, 3, 5, 8, 256, 0x0104, 0x0204, 0x0400];

/// Ticks that look like none when they are cut down.
const WIDE: [u32; 4] = [0x100, 0x1_0000, 0x100_0000, 0x8000_0000];

impl Source for BatchGenerator {
    fn new(part: usize, seed: u64) -> BatchGenerator {
        let mut rng = Rng::new(seed);
        let calls = Generator::new(part, rng.draw());
        BatchGenerator { rng, calls }
    }

    fn sound_record(&mut self) -> Record {
        self.calls.sound_record()
    }

    /// A quarter of the batches start from another record, and a third are damaged.
    fn step(&mut self, now: &Record) -> Step {
        let step = self.calls.step(now);
        let other = self.rng.one_in(4).then(|| self.sound_record().pack());
        let record = step.record.or(other);
        let mut items = written(&self.day(begins_with(record, now)));
        if self.rng.one_in(3) {
            self.damage(&mut items);
        }
        let filled = self.buffers(&items);
        Step { call: Call::Batch { items }, record, filled, ..step }
    }
}

impl BatchGenerator {
    /// The items of a day that begins with this record.
    pub fn day(&mut self, from: Record) -> Vec<Item> {
        match self.rng.below(80) {
            0 | 1 => return self.rewrites(from),
            2 => return self.long(from),
            _ => {}
        }
        let count = self.rng.pick(&[0, 1, 1, 2, 3, 5, 8, 13, 21]);
        let mut now = from;
        let mut items = Vec::new();
        for _ in 0..count {
            let item = self.item(&now);
            now = item.follow(now);
            items.push(item);
        }
        items
    }

    /// An item that has something to do with this record, mostly.
    fn item(&mut self, now: &Record) -> Item {
        if let (Mode::Busy(left, _), true) = (now.mode, self.rng.one_in(2)) {
            let wide = self.rng.pick(&WIDE);
            let ticks = [left - 1, left, left, left, left + 1, left / 2, 1, 0, wide];
            return Item::Wait { ticks: self.rng.pick(&ticks) };
        }
        loop {
            match self.calls.step(now).call {
                Call::Transact { mut sent, pulses, w } => {
                    sent.truncate(MOST_BYTES);
                    return Item::Transaction { sent, pulses: pulses % 8, w: u32::from(w != 0) };
                }
                Call::Wait(ticks) => return Item::Wait { ticks },
                _ => {}
            }
        }
    }

    /// The same page programmed again and again, without an erase: zeros first, then ones mostly. It lies in sector 0
    /// mostly, which is seldom protected.
    fn rewrites(&mut self, from: Record) -> Vec<Item> {
        let all = |sent| Item::Transaction { sent, pulses: 0, w: 1 };
        let part = from.figures();
        let within = self.rng.pick(&[part.sector_bytes, part.sector_bytes, part.bytes]);
        let page = self.rng.below(within / PAGE) * PAGE;
        let mut items = vec![Item::Wait { ticks: u32::MAX }, all(vec![RES])];
        for k in 0..self.rng.pick(&[2, 3, 5, 8, 40]) {
            let data = self.rng.pick(&[0xFF, 0xFF, 0xFF, 0xA5]);
            let mut sent = vec![PP, (page >> 16) as u8, (page >> 8) as u8, 0];
            sent.resize(4 + PAGE, if k == 0 { 0x00 } else { data });
            items.extend([all(vec![WREN]), all(sent), Item::Wait { ticks: u32::MAX }]);
        }
        items
    }

    /// A few items, one of them about as long as an item can be.
    fn long(&mut self, from: Record) -> Vec<Item> {
        let mut items = vec![self.item(&from)];
        let n = self.rng.pick(&[0x7FFF, 0x8000, MOST_BYTES - 1, MOST_BYTES, MOST_BYTES]);
        let mut sent = self.rng.bytes(n);
        sent[0] = self.rng.pick(&[READ, FAST_READ, RDSR, PP, 0x00]);
        items.push(Item::Transaction { sent, pulses: 0, w: 1 });
        let behind = items.iter().fold(from, |now, item| item.follow(now));
        items.push(self.item(&behind));
        items
    }

    /// Cuts the batch, or changes a head, or puts bytes in that are mostly no item.
    fn damage(&mut self, bytes: &mut Vec<u8>) {
        let heads = heads(bytes);
        let at = self.rng.pick(&heads);
        match self.rng.below(8) {
            0 => bytes.truncate(self.rng.below(bytes.len() + 1)),
            1 => {
                let some = 1 + self.rng.below(4);
                bytes.extend(self.rng.bytes(some));
            }
            2 | 3 if at < bytes.len() => {
                let (any, odd) = (self.rng.byte(), self.rng.pick(&FLAGS));
                bytes[at + 2] = self.rng.pick(&[any, odd, odd]);
            }
            4 if at < bytes.len() => {
                let (byte, more) = (self.rng.below(2), self.rng.pick(&[1, 2, 0xFF, 0x80]));
                bytes[at + byte] = bytes[at + byte].wrapping_add(more);
            }
            5 => bytes.truncate(at + self.rng.below(HEAD + 1)),
            6 => {
                let n = self.rng.below(30);
                *bytes = self.rng.bytes(n);
            }
            _ => {
                let (n, flag) = (self.rng.pick(&WAITS), self.rng.pick(&FLAGS));
                let (n, flag) = self.rng.pick(&[(n, WAIT), (n, WAIT), (WAIT_BYTES, flag)]);
                let mut wait = vec![n as u8, (n >> 8) as u8, flag];
                wait.extend(self.rng.bytes(n));
                bytes.splice(at..at, wait);
            }
        }
    }

    /// Buffers for responses, answers and bits missing: as long as needed, longer, or now and then too short.
    fn buffers(&mut self, bytes: &[u8]) -> Vec<Filled> {
        let lengths = Paper.room(&Paper.day(bytes).items).map(|needed| {
            let behind = self.rng.below(40);
            let short = [needed.saturating_sub(1), needed.saturating_sub(1), needed / 2, 0];
            match self.rng.below(12) {
                0 => self.rng.pick(&short),
                _ => needed + self.rng.pick(&[0, 0, 1, behind]),
            }
        });
        lengths.map(|len| Filled { bytes: self.rng.bytes(len + SPARE), len }).into()
    }
}

/// The record that a day begins with: what is lent, where it is sound and of the chip's part.
pub fn begins_with(record: Option<Packed>, now: &Record) -> Record {
    let given = record.and_then(|record| Record::unpack(&record));
    given.filter(|record| record.part == now.part).unwrap_or(*now)
}

/// Where each item of these bytes begins, and where the next one would.
pub fn heads(bytes: &[u8]) -> Vec<usize> {
    let mut heads = vec![0];
    for item in Paper.day(bytes).items {
        let last = heads[heads.len() - 1];
        heads.push(last + written(&[item]).len());
    }
    heads
}
