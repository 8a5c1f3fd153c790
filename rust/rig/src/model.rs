//! A model of the written rules: the five calls, rule by rule in the papers' order, plain and slow.
//!
//! Each rule is a method, so that a test can put a wrong reading in the place of one of them.

mod cycle;
mod part;
mod record;
mod transaction;

use std::ops::Range;

use record::changed;
use transaction::accepted;

pub use cycle::{Cycle, CYCLE_BYTES, NAMED_AT, PAGE, SLOTS_AT, SUBSECTOR};
pub use part::{Part, PARTS, SMALL};
pub use record::{is_duration, latch_at, Mode, Packed, Record, CYCLE_AT, RECORD_BYTES};
pub use record::{LOCKS, LOCKS_AT, LOCK_DOWN, WRITE_LOCK};
pub use transaction::{address, as_needed, full_address, needs_latch, Outcome, Transaction, CODES};
pub use transaction::{BE, DP, FAST_READ, PP, RDID, RDSR, READ, RES, SE, WRDI, WREN, WRSR};
pub use transaction::{PE, PW, RDLR, SSE, WRLR};

/// The rules.
pub trait Model: Sync {
    fn deliver(
        &self,
        record: &mut [u8],
        part: u32,
        array: &mut [u8],
        durations: [u32; 4],
    ) -> Outcome {
        if record.len() != RECORD_BYTES {
            return Outcome::only(8);
        }
        if part > 6 {
            return Outcome::only(1);
        }
        if array.len() != PARTS[part as usize].bytes {
            return Outcome::only(2);
        }
        if !durations.into_iter().all(is_duration) {
            return Outcome::only(7);
        }
        array.fill(0xFF);
        record.copy_from_slice(&Record::standby(part as u8).lasting(durations).pack());
        Outcome::only(0)
    }

    fn transact(
        &self,
        record: &mut [u8],
        array: &mut [u8],
        t: Transaction,
        response: &mut [u8],
    ) -> Outcome {
        let mut r = match accepted(self.lent(record, array), t, response) {
            Ok(r) => r,
            Err(number) => return Outcome::only(number),
        };
        let ignored = self.ignored(&r, t);
        if ignored != 0 {
            response[..t.sent.len()].fill(0xFF);
            let missing = self.told(&r, array, t.sent, ignored);
            return Outcome { missing, ..Outcome::only(ignored) };
        }
        let missing = self.told(&r, array, t.sent, 0);
        let outcome = Outcome { missing, ..self.drive(&r, array, t.sent, response) };
        self.change(&mut r, t.sent);
        record.copy_from_slice(&r.pack());
        outcome
    }

    fn wait(&self, record: &mut [u8], array: &mut [u8], ticks: u32) -> Outcome {
        changed(self.lent(record, array), record, |r| match r.mode {
            Mode::Busy(left, cycle) if ticks < left => self.in_cycle(r, left - ticks, cycle),
            Mode::Busy(_, cycle) => {
                self.complete(r, array, &cycle);
                *r = r.rested();
            }
            _ => {}
        })
    }

    fn power_up(&self, record: &mut [u8], array: &mut [u8]) -> Outcome {
        changed(self.lent(record, array), record, |r| {
            if let Some(cycle) = r.cycle() {
                self.complete(r, array, &cycle);
            }
            *r = r.rested().unlocked();
        })
    }

    fn loss(&self, record: &mut [u8], array: &mut [u8], mask: &[u8], yes: u32) -> Outcome {
        let whole = |r| if mask.len() == PAGE { Ok(r) } else { Err(41) };
        changed(self.lent(record, array).and_then(whole), record, |r| {
            if let Some(cycle) = r.cycle() {
                self.cut(r, array, &cycle, mask, yes);
            }
            *r = r.rested().unlocked();
        })
    }

    /// The record, or 8 or 6.
    fn unpack(&self, record: &[u8]) -> Result<Record, u8> {
        if record.len() != RECORD_BYTES {
            return Err(8);
        }
        Record::unpack(record).ok_or(6)
    }

    /// The record, or 8 or 6, or 2 where the array is not of the part's size.
    fn lent(&self, record: &[u8], array: &[u8]) -> Result<Record, u8> {
        let r = self.unpack(record)?;
        if array.len() != r.figures().bytes {
            return Err(2);
        }
        Ok(r)
    }

    /// The chip's number, the first that applies; 0 where it executes.
    fn ignored(&self, r: &Record, t: Transaction) -> u8 {
        let applies = |number: &u8| self.applies(*number, r, t);
        self.chip_numbers().into_iter().find(applies).unwrap_or(0)
    }

    /// The chip's numbers, in their order.
    fn chip_numbers(&self) -> [u8; 9] {
        [11, 14, 12, 13, 15, 16, 17, 18, 19]
    }

    /// When each applies, given that none before it does.
    fn applies(&self, number: u8, r: &Record, t: Transaction) -> bool {
        let n = t.sent.len();
        if n == 0 {
            return number == 11;
        }
        let code = t.sent[0];
        match number {
            14 => !self.known(r.figures(), code),
            12 => r.cycle().is_some() && code != RDSR,
            13 => r.mode == Mode::Deep && code != RES,
            15 => !self.as_needed(r.figures(), code, n, t.pulses),
            16 => self.needs_latch(code) && !r.latch,
            17 => self.protected(r, t),
            18 => code == WRSR && self.frozen(r, t.w),
            19 => code == WRLR && self.locked_down(r, t.sent),
            _ => false,
        }
    }

    /// Whether the code is an instruction of the part.
    fn known(&self, part: &Part, code: u8) -> bool {
        match code {
            RDID => part.identification.is_some(),
            DP | RES => part.deep,
            PW | PE | SSE | WRLR | RDLR => part.locks,
            _ => CODES.contains(&code),
        }
    }

    /// Whether n and the further pulses are as the instruction needs.
    fn as_needed(&self, part: &Part, code: u8, n: usize, pulses: u32) -> bool {
        as_needed(part, code, n, pulses)
    }

    /// Whether the instruction needs the latch.
    fn needs_latch(&self, code: u8) -> bool {
        needs_latch(code)
    }

    /// A program, a write or an erase in a protected sector; BE with any protected.
    fn protected(&self, r: &Record, t: Transaction) -> bool {
        match t.sent[0] {
            PP | SE | PW | PE | SSE => r.protects(address(r.figures(), t.sent)),
            BE => r.protects_any(),
            _ => false,
        }
    }

    /// SRWD set and W low.
    fn frozen(&self, r: &Record, w: u32) -> bool {
        r.srwd && w == 0
    }

    /// Whether the addressed lock register is frozen.
    fn locked_down(&self, r: &Record, sent: &[u8]) -> bool {
        r.lock(address(r.figures(), sent)) & LOCK_DOWN != 0
    }

    /// Writes the first n response bytes of an executed transaction.
    fn drive(&self, r: &Record, array: &[u8], sent: &[u8], response: &mut [u8]) -> Outcome {
        let mut outcome = Outcome::only(0);
        for (i, line) in response[..sent.len()].iter_mut().enumerate() {
            *line = 0xFF;
            if let Some(byte) = self.driven(r, array, sent, i) {
                *line = byte;
                if outcome.count == 0 {
                    outcome.first = i;
                }
                outcome.count += 1;
            }
        }
        outcome
    }

    /// What the chip drives during byte i.
    fn driven(&self, r: &Record, array: &[u8], sent: &[u8], i: usize) -> Option<u8> {
        let part = r.figures();
        match sent[0] {
            RDID if (1..4).contains(&i) => part.identification.map(|three| three[i - 1]),
            RDID if i >= 4 => Some(0x00),
            RDSR if i >= 1 => Some(r.status()),
            READ if i >= 4 => Some(self.read(array, address(part, sent) + i - 4)),
            FAST_READ if i >= 5 => Some(self.read(array, address(part, sent) + i - 5)),
            RES if i >= 4 => part.signature,
            RDLR if i >= 4 => Some(r.lock(address(part, sent))),
            _ => None,
        }
    }

    /// The array, rolling over from its last byte to 0.
    fn read(&self, array: &[u8], at: usize) -> u8 {
        array[at % array.len()]
    }

    /// What an executed transaction does to the record; it does nothing to the array.
    fn change(&self, r: &mut Record, sent: &[u8]) {
        match sent[0] {
            WREN => r.latch = true,
            WRDI => r.latch = false,
            DP => r.mode = Mode::Deep,
            RES => r.mode = Mode::Standby,
            WRLR => self.write_lock(r, address(r.figures(), sent), sent[4]),
            _ => {
                if let Some(cycle) = self.started(r, sent) {
                    self.in_cycle(r, self.duration(r, &cycle), cycle);
                }
            }
        }
    }

    /// Bits 1 and 0 go to the sector's lock register at once, and the latch is reset.
    fn write_lock(&self, r: &mut Record, address: usize, byte: u8) {
        let sector = address / r.figures().sector_bytes;
        r.locks[sector] = byte & (LOCK_DOWN | WRITE_LOCK);
        r.latch = false;
    }

    /// The cycle that an instruction starts, if it starts one.
    fn started(&self, r: &Record, sent: &[u8]) -> Option<Cycle> {
        let part = r.figures();
        let address = || address(part, sent);
        let slots = || self.slots(address(), &sent[4..]);
        match sent[0] {
            WRSR => Some(Cycle::Settings { bp: self.bp(part, sent[1]), srwd: sent[1] & 0x80 != 0 }),
            PP => Some(Cycle::Program { address: address(), slots: slots() }),
            PW => {
                let named = (sent.len() - 4).min(PAGE);
                Some(Cycle::PageWrite { address: address(), slots: slots(), named })
            }
            SE => Some(Cycle::SectorErase { address: address() }),
            SSE => Some(Cycle::SubsectorErase { address: address() }),
            PE => Some(Cycle::PageErase { address: address() }),
            BE => Some(Cycle::BulkErase),
            _ => None,
        }
    }

    /// How long a cycle takes that starts now.
    fn duration(&self, r: &Record, cycle: &Cycle) -> u32 {
        r.duration(cycle)
    }

    /// In a cycle with so many ticks left.
    fn in_cycle(&self, r: &mut Record, left: u32, cycle: Cycle) {
        *r = r.busy(left, cycle);
    }

    /// BP in a status byte: bits 4 to 2, or bits 3 and 2 where the highest BP is 3.
    fn bp(&self, part: &Part, status: u8) -> u8 {
        status >> 2 & if part.highest_bp == 3 { 3 } else { 7 }
    }

    /// Data in the latch of 256 slots, all FF at first.
    fn slots(&self, address: usize, data: &[u8]) -> [u8; PAGE] {
        let mut slots = [0xFF; PAGE];
        for (k, byte) in data.iter().enumerate() {
            let slot = &mut slots[(address + k) % PAGE];
            *slot = self.slot(*slot, *byte);
        }
        slots
    }

    /// A cycle's last tick: what it is for comes about.
    fn complete(&self, r: &mut Record, array: &mut [u8], cycle: &Cycle) {
        for at in self.area(r, cycle) {
            array[at] = self.completed(cycle, array[at], at);
        }
        self.settle(r, cycle);
    }

    /// A cycle that is cut: some of what it is for comes about.
    fn cut(&self, r: &mut Record, array: &mut [u8], cycle: &Cycle, mask: &[u8], yes: u32) {
        for at in self.area(r, cycle) {
            array[at] = self.cut_short(cycle, array[at], at, mask);
        }
        if yes != 0 {
            self.settle(r, cycle);
        }
    }

    /// The bytes of the array that a cycle acts on.
    fn area(&self, r: &Record, cycle: &Cycle) -> Range<usize> {
        cycle.area(r.figures())
    }

    /// The settings that a settings write was for.
    fn settle(&self, r: &mut Record, cycle: &Cycle) {
        if let Cycle::Settings { bp, srwd } = *cycle {
            (r.bp, r.srwd) = (bp, srwd);
        }
    }

    /// A byte of the area when the cycle is complete.
    fn completed(&self, cycle: &Cycle, old: u8, at: usize) -> u8 {
        match *cycle {
            Cycle::Program { slots, .. } => self.programmed(old, slots[at % PAGE]),
            Cycle::PageWrite { address, slots, named } if self.names(address, named, at) => {
                slots[at % PAGE]
            }
            Cycle::PageWrite { .. } | Cycle::Settings { .. } => old,
            _ => 0xFF,
        }
    }

    /// A byte of the area when the cycle is cut.
    fn cut_short(&self, cycle: &Cycle, old: u8, at: usize, mask: &[u8]) -> u8 {
        match *cycle {
            Cycle::Program { slots, .. } => old & (slots[at % PAGE] | mask[at % PAGE]),
            Cycle::PageWrite { address, named, .. } if !self.names(address, named, at) => old,
            Cycle::Settings { .. } => old,
            _ => old | mask[at % PAGE],
        }
    }

    /// Whether a page write from the address on names this byte of its page.
    fn names(&self, address: usize, named: usize, at: usize) -> bool {
        (0..named).any(|k| (address + k) % PAGE == at % PAGE)
    }

    /// A slot after a further byte: the later one replaces the earlier.
    fn slot(&self, _before: u8, byte: u8) -> u8 {
        byte
    }

    /// A byte of the page after the program: itself and its slot, bit by bit.
    fn programmed(&self, before: u8, slot: u8) -> u8 {
        before & slot
    }

    /// The bits missing that an answer of this number tells: those of an executed program.
    fn told(&self, r: &Record, array: &[u8], sent: &[u8], number: u8) -> u32 {
        match (number, sent) {
            (0, [PP, ..]) => self.missing(array, address(r.figures(), sent), &sent[4..]),
            _ => 0,
        }
    }

    /// The bits that the data wants 1 in the addressed page and the array has 0, slot by slot.
    fn missing(&self, array: &[u8], address: usize, data: &[u8]) -> u32 {
        let page = &array[address / 256 * 256..][..256];
        let of_slot = |(slot, before): (usize, &u8)| match self.wanted(address, data, slot) {
            Some(wanted) => (0..8).filter(|bit| self.unmet(wanted, *before, *bit)).count() as u32,
            None => 0,
        };
        page.iter().enumerate().map(of_slot).sum()
    }

    /// What the data wants in a slot: the last byte that went there; none where no byte went.
    fn wanted(&self, address: usize, data: &[u8], slot: usize) -> Option<u8> {
        (0..data.len()).rev().find(|k| (address + k) % 256 == slot).map(|k| data[k])
    }

    /// Whether a bit is wanted 1 and is 0.
    fn unmet(&self, wanted: u8, before: u8, bit: u32) -> bool {
        wanted >> bit & 1 == 1 && before >> bit & 1 == 0
    }
}

/// The rules as the paper has them.
pub struct Paper;

impl Model for Paper {}
