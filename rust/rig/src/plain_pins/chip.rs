//! The chip behind the plain pins: takes bits, shows bits, and carries transactions out.

use std::ops::Range;

use super::Listener;
use crate::model::*;
use crate::pins_model::{MOST_BYTES, NOT_DRIVEN};

pub struct Chip<'a> {
    pub record: Record,
    /// The output, were it open.
    pub shown: u8,
    /// The bits missing in all programs so far.
    pub missing: u32,
    array: &'a [u8],
    sent: Vec<u8>,
    /// The bits of the unfinished byte, and how many they are.
    byte: u8,
    bits: u32,
    /// What is driven during the unfinished byte.
    driven: Option<u8>,
    /// The address, from its last byte on, and the next byte of the array to read.
    address: usize,
    next: usize,
}

impl Chip<'_> {
    pub fn new(record: Record, array: &[u8]) -> Chip<'_> {
        let sent = Vec::with_capacity(MOST_BYTES);
        let (shown, byte, bits, driven, address, next) = (NOT_DRIVEN, 0, 0, None, 0, 0);
        Chip { record, shown, missing: 0, array, sent, byte, bits, driven, address, next }
    }

    /// What is driven after the whole bytes taken so far.
    fn drive(&mut self) -> Option<u8> {
        let n = self.sent.len();
        let code = self.sent[0];
        if n == 4 {
            let [_, high, middle, low] = self.sent[..] else { unreachable!() };
            let address = (high as usize) << 16 | (middle as usize) << 8 | low as usize;
            self.address = address % self.array.len();
            self.next = self.address;
        }
        let taken = match self.record.mode {
            Mode::Standby => true,
            Mode::Busy(..) => code == RDSR,
            Mode::Deep => code == RES,
        };
        let part = self.record.figures();
        match code {
            _ if !taken => None,
            RDSR => Some(self.record.status()),
            READ if n >= 4 => Some(self.read()),
            FAST_READ if n >= 5 => Some(self.read()),
            RDID => part.identification.map(|three| three.get(n - 1).copied().unwrap_or(0)),
            RES if n >= 4 => part.signature,
            RDLR if n >= 4 && part.locks => Some(self.record.locks[self.sector()]),
            _ => None,
        }
    }

    fn read(&mut self) -> u8 {
        let byte = self.array[self.next];
        self.next += 1;
        if self.next == self.array.len() {
            self.next = 0;
        }
        byte
    }

    fn sector(&self) -> usize {
        self.address / self.record.figures().sector_bytes
    }

    fn open_sector(&self) -> bool {
        let part = self.record.figures();
        let open = part.sectors - part.protected[self.record.bp as usize];
        self.sector() < open
            && self.record.locks.get(self.sector()).is_none_or(|lock| lock & 1 == 0)
    }

    /// The page of the address, and its slots with the data in them.
    fn page(&self) -> (&[u8], [u8; PAGE], Range<usize>) {
        let page = &self.array[self.address / PAGE * PAGE..][..PAGE];
        let last = self.sent.len().saturating_sub(PAGE).max(4)..self.sent.len();
        let mut slots = [0xFF; PAGE];
        for k in last.clone() {
            slots[(self.address + k - 4) % PAGE] = self.sent[k];
        }
        (page, slots, last)
    }

    fn program(&mut self) {
        let (page, slots, last) = self.page();
        let at = |k: usize| (self.address + k - 4) % PAGE;
        let missing = last.map(|k| (self.sent[k] & !page[at(k)]).count_ones()).sum::<u32>();
        self.missing += missing;
        self.start(Cycle::Program { address: self.address, slots });
    }

    fn write_page(&mut self) {
        let (_, slots, last) = self.page();
        self.start(Cycle::PageWrite { address: self.address, slots, named: last.len() });
    }

    fn write_lock(&mut self) {
        let sector = self.sector();
        if self.record.locks[sector] & 2 == 0 {
            self.record.locks[sector] = self.sent[4] & 3;
            self.record.latch = false;
        }
    }

    fn write_status(&mut self) {
        let bp = self.sent[1] >> 2 & self.record.figures().highest_bp;
        self.start(Cycle::Settings { bp, srwd: self.sent[1] & 0x80 != 0 });
    }

    /// A cycle starts; no ticks pass within a run, so that none ends.
    fn start(&mut self, cycle: Cycle) {
        self.record = self.record.busy(self.record.duration(&cycle), cycle);
    }

    /// What a finished transaction changes.
    fn change(&mut self, w: bool) {
        let r = self.record;
        let [code, ..] = self.sent[..] else { return };
        let part = r.figures();
        match r.mode {
            Mode::Standby => {}
            Mode::Deep if code == RES => {}
            _ => return,
        }
        match (code, self.sent.len(), self.bits) {
            (WREN, 1, 0) => self.record.latch = true,
            (WRDI, 1, 0) => self.record.latch = false,
            (DP, 1, 0) if part.deep => self.record.mode = Mode::Deep,
            (RES, 1, 0) if part.deep => self.record.mode = Mode::Standby,
            (RES, _, _) if part.deep && !part.locks => self.record.mode = Mode::Standby,
            (WRSR, 2, 0) if r.latch && (w || !r.srwd) => self.write_status(),
            (WRLR, 5, 0) if r.latch && part.locks => self.write_lock(),
            (BE, 1, 0) if r.latch && !r.protects_any() => self.start(Cycle::BulkErase),
            (_, 4.., 0) if r.latch && self.open_sector() => self.change_sector(code),
            _ => {}
        }
    }

    /// What a program, write or erase starts in an open sector.
    fn change_sector(&mut self, code: u8) {
        let (address, locks) = (self.address, self.record.figures().locks);
        match (code, self.sent.len()) {
            (PP, 5..) => self.program(),
            (PW, 5..) if locks => self.write_page(),
            (SE, 4) => self.start(Cycle::SectorErase { address }),
            (PE, 4) if locks => self.start(Cycle::PageErase { address }),
            (SSE, 4) if locks => self.start(Cycle::SubsectorErase { address }),
            _ => {}
        }
    }
}

impl Listener for Chip<'_> {
    fn begin(&mut self) {
        self.sent.clear();
        (self.byte, self.bits) = (0, 0);
        self.driven = None;
        self.shown = NOT_DRIVEN;
    }

    #[inline(always)]
    fn take(&mut self, bit: u8) {
        self.byte = self.byte << 1 | bit;
        self.bits += 1;
        if self.bits == 8 {
            self.sent.push(self.byte);
            self.bits = 0;
            self.driven = self.drive();
        }
    }

    #[inline(always)]
    fn move_on(&mut self) {
        self.shown = match self.driven {
            Some(byte) => byte >> (7 - self.bits) & 1,
            None => NOT_DRIVEN,
        };
    }

    fn end(&mut self, w: bool) {
        self.change(w);
    }
}
