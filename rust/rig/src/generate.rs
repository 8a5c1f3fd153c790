//! Random calls, guided by the record so that every state and every answer comes up often.

mod records;

use crate::compare::{Call, Filled, Source, Step, SPARE};
use crate::model::*;
use crate::rng::Rng;

pub struct Generator {
    rng: Rng,
    part: usize,
    /// An address used a while ago: programs, erases and reads meet there.
    spot: usize,
}

/// Numbers that look like small ones when they are cut down.
const WIDE: [u32; 9] = [8, 255, 256, 257, 0x1_0000, 0x1_0001, 0x8000_0000, u32::MAX - 1, u32::MAX];

impl Source for Generator {
    fn new(part: usize, seed: u64) -> Generator {
        Generator { rng: Rng::new(seed), part, spot: 0 }
    }

    fn sound_record(&mut self) -> Record {
        self.record_of(self.part)
    }

    /// One call in eight is odd: several of its lengths and numbers may be wrong at once.
    fn step(&mut self, now: &Record) -> Step {
        let odd = self.rng.one_in(8);
        let size = PARTS[self.part].bytes;
        let (call, filled) = self.call(now, odd);
        let mut step =
            Step { call, record: None, record_len: RECORD_BYTES, array_len: size, filled };
        if self.rng.one_in(40) {
            step.record = Some(self.sound_record().pack());
        }
        if odd && self.rng.one_in(3) {
            step.record = Some(self.damaged(now));
        }
        if odd && self.rng.one_in(6) {
            let lengths = [0, 1, RECORD_BYTES - 1, RECORD_BYTES + 1, RECORD_BYTES + SPARE];
            step.record_len = self.rng.pick(&lengths);
        }
        if odd && self.rng.one_in(3) {
            step.array_len = self.rng.pick(&[0, 256, 4_096, size - 1, size + 1, size + SPARE]);
        }
        step
    }
}

impl Generator {
    /// A call, and the buffers that it fills.
    fn call(&mut self, now: &Record, odd: bool) -> (Call, Vec<Filled>) {
        let busy = now.cycle().is_some();
        if !self.rng.one_in(if busy { 2 } else { 12 }) {
            return self.transaction(now, odd);
        }
        let call = match (self.rng.below(24), busy) {
            (0, _) | (1..=3, false) => self.delivery(odd),
            (4..=6, _) => Call::PowerUp,
            (7..=8, _) | (9..=15, true) => self.loss(odd),
            _ => Call::Wait(self.ticks(now)),
        };
        (call, vec![])
    }

    pub(crate) fn ticks(&mut self, now: &Record) -> u32 {
        let left = match now.mode {
            Mode::Busy(left, _) => left,
            _ => 1,
        };
        let random = self.rng.draw() as u32;
        self.rng.pick(&[0, 1, 2, left - 1, left, left, left + 1, left / 2, u32::MAX, random])
    }

    /// A power loss: masks of zeros, of ones, of few of either, or random.
    fn loss(&mut self, odd: bool) -> Call {
        let mut length = PAGE;
        if odd && self.rng.one_in(2) {
            length = self.rng.pick(&[0, 1, 255, 255, 257, 257, 512]);
        }
        let mut mask = self.rng.bytes(length);
        match self.rng.below(6) {
            0 => mask.fill(0x00),
            1 => mask.fill(0xFF),
            2 => mask.iter_mut().for_each(|byte| *byte &= self.rng.byte() & self.rng.byte()),
            3 => mask.iter_mut().for_each(|byte| *byte |= self.rng.byte() | self.rng.byte()),
            _ => {}
        }
        Call::Loss { mask, yes: self.flag() }
    }

    /// Whether filling an array takes its time.
    fn large(part: usize) -> bool {
        PARTS[part].bytes >= 4_194_304
    }

    /// A delivery; on the large parts it is mostly one that gets refused.
    fn delivery(&mut self, odd: bool) -> Call {
        let mut durations = [0; 4].map(|_| self.duration());
        if odd || Self::large(self.part) && !self.rng.one_in(20) {
            let wrong = [0, 1_000_001, 0x8000_0001, u32::MAX, self.rng.draw() as u32];
            durations[self.rng.below(4)] = self.rng.pick(&wrong);
        }
        let mut part = self.part as u32;
        if odd && self.rng.one_in(2) {
            part = self.rng.pick(&[0, 1, 2, 3, 4, 5, 6, 7, 8, 255, 256, 0x1_0000, u32::MAX]);
        }
        Call::Deliver { part, durations }
    }

    fn duration(&mut self) -> u32 {
        let random = 1 + self.rng.below(1_000_000) as u32;
        self.rng.pick(&[1, 1, 2, 3, 5, 9, 255, 256, 65_536, 1_000_000, random])
    }

    pub(crate) fn transaction(&mut self, now: &Record, odd: bool) -> (Call, Vec<Filled>) {
        let code = self.code(now);
        let mut sent = self.sent(code, now);
        if odd && self.rng.one_in(20) {
            let n = self.rng.pick(&[65_535, 65_536, 65_537, 65_537, 65_538, 70_000]);
            sent = self.stretched(sent, n);
        }
        let n = sent.len();
        let behind = self.rng.below(40);
        let mut response_len = n + self.rng.pick(&[0, 0, 1, behind]);
        if odd && self.rng.one_in(3) {
            response_len = self.rng.pick(&[0, n / 2, n.saturating_sub(1)]);
        }
        let bytes = self.rng.bytes(response_len + SPARE);
        let call = Call::Transact { sent, pulses: self.pulses(odd), w: self.flag() };
        (call, vec![Filled { bytes, len: response_len }])
    }

    fn pulses(&mut self, odd: bool) -> u32 {
        if odd && self.rng.one_in(3) {
            return self.rng.pick(&WIDE);
        }
        match self.rng.below(10) {
            0 => self.rng.below(8) as u32,
            _ => 0,
        }
    }

    /// A number that is 0 or not: W, or a loss's yes.
    fn flag(&mut self) -> u32 {
        match self.rng.below(8) {
            0..=2 => 0,
            3..=5 => 1,
            6 => self.rng.pick(&WIDE),
            _ => self.rng.draw() as u32,
        }
    }

    /// A first byte that has something to do in this state, mostly.
    fn code(&mut self, now: &Record) -> u8 {
        let likely = match now.mode {
            Mode::Busy(..) => RDSR,
            Mode::Deep => RES,
            Mode::Standby if now.latch && now.figures().locks => {
                self.rng.pick(&[WRSR, PP, PP, SE, BE, PW, PW, PE, SSE, WRLR, WRLR, READ, RDLR])
            }
            Mode::Standby if now.latch => {
                self.rng.pick(&[WRSR, WRSR, PP, PP, PP, PP, PP, SE, BE, READ, FAST_READ])
            }
            Mode::Standby => self.rng.pick(&[WREN, WREN, WREN, READ, FAST_READ, RDID, DP]),
        };
        let code = match self.rng.below(30) {
            0 => self.rng.byte(),
            1 => 0x9E,
            2..=10 => self.rng.pick(&CODES),
            _ => likely,
        };
        if code == BE && Self::large(self.part) && !self.rng.one_in(10) {
            return PP;
        }
        code
    }

    /// The bytes of a transaction: mostly of a length that the instruction needs.
    fn sent(&mut self, code: u8, now: &Record) -> Vec<u8> {
        let some = match self.rng.below(100) {
            0 => self.rng.below(65_532),
            1..=20 => self.rng.below(700),
            21..=30 => 0,
            _ => self.rng.below(12),
        };
        let mut n = match code {
            WREN | WRDI | BE | DP => 1,
            RES if now.figures().locks => 1,
            WRSR => 2,
            SE | PE | SSE => 4,
            WRLR => 5,
            PP | PW | FAST_READ => 5 + some,
            READ | RDLR => 4 + some,
            _ => 1 + some.min(2_000),
        };
        match self.rng.below(24) {
            0 => n += 1,
            1 => n -= 1,
            2 => n = self.rng.below(8),
            _ => {}
        }
        let address = self.address(now);
        let mut sent = vec![code, (address >> 16) as u8, (address >> 8) as u8, address as u8];
        if code == WRSR {
            sent[1] = self.rng.byte();
        }
        let mut sent = self.stretched(sent, n);
        if matches!(code, PP | PW) && self.rng.one_in(3) {
            self.uneven(&mut sent[n.min(4)..]);
        }
        if code == WRLR && n > 4 {
            let (any, lock) = (self.rng.byte(), now.lock(address % now.figures().bytes));
            sent[4] = self.rng.pick(&[any & 3, any & 1, lock, any]);
        }
        sent
    }

    /// Data of few ones or of few zeros, or of one byte throughout: over a page that was programmed some of it
    /// wants bits that are 0, and some wants none.
    fn uneven(&mut self, data: &mut [u8]) {
        match self.rng.below(4) {
            0 => data.fill(0xFF),
            1 => data.fill(self.rng.pick(&[0x00, 0x00, 0x01, 0x80])),
            2 => data.iter_mut().for_each(|byte| *byte |= self.rng.byte() | self.rng.byte()),
            _ => data.iter_mut().for_each(|byte| *byte &= self.rng.byte() & self.rng.byte()),
        }
    }

    /// The same beginning, cut or filled up to n bytes.
    fn stretched(&mut self, mut sent: Vec<u8>, n: usize) -> Vec<u8> {
        let begun = sent.len().min(n);
        sent.resize(n, 0);
        self.rng.fill(&mut sent[begun..]);
        sent
    }

    /// A 24-bit address: at an end, at the beginning of a sector, a protected or a locked one perhaps, near the spot,
    /// or anywhere; now and then with bits above the part's size.
    fn address(&mut self, now: &Record) -> usize {
        let part = &PARTS[self.part];
        let near = self.rng.below(5);
        let open = part.sectors - part.protected[now.bp as usize];
        let locked = now.locks.iter().position(|lock| *lock != 0).unwrap_or(open);
        let sector = self.rng.pick(&[self.part, open, part.sectors / 2, locked, locked + 1]);
        let base = match self.rng.below(10) {
            0 => near,
            1 => part.bytes - 1 - near,
            2 => part.bytes - 1 - self.rng.below(300),
            3 | 4 => part.bytes + sector * part.sector_bytes + near - 2,
            5 => self.rng.below(1 << 24),
            _ => part.bytes + self.spot + self.rng.below(600) - 300,
        };
        let base = base % part.bytes;
        if self.rng.one_in(20) {
            self.spot = base;
        }
        let above = match self.rng.below(4) {
            0 => self.rng.below((1 << 24) / part.bytes) * part.bytes,
            _ => 0,
        };
        base + above
    }
}
