//! Deliberate faults of page writes, page erases and subsector erases.

use std::ops::Range;

use crate::model::*;

/// A byte of a page write that is complete is something else: from the slot, the old byte, and whether it is named.
pub struct Written(pub fn(u8, u8, bool) -> u8);

impl Model for Written {
    fn completed(&self, cycle: &Cycle, old: u8, at: usize) -> u8 {
        match *cycle {
            Cycle::PageWrite { address, slots, named } => {
                self.0(slots[at % PAGE], old, Paper.names(address, named, at))
            }
            _ => Paper.completed(cycle, old, at),
        }
    }
}

/// Bits are cleared, and none is set.
pub fn clearing(slot: u8, old: u8, named: bool) -> u8 {
    if named {
        slot & old
    } else {
        old
    }
}

/// Bits are set, and none is cleared.
pub fn setting_bits(slot: u8, old: u8, named: bool) -> u8 {
    if named {
        slot | old
    } else {
        old
    }
}

/// The rest of the page is erased.
pub fn erasing_the_rest(slot: u8, _: u8, named: bool) -> u8 {
    if named {
        slot
    } else {
        0xFF
    }
}

/// The whole page becomes its slots.
pub fn all_slots(slot: u8, _: u8, _: bool) -> u8 {
    slot
}

/// Other bytes of the page are named: from the address, the number, and a byte's place in the page.
pub struct Names(pub fn(usize, usize, usize) -> bool);

impl Model for Names {
    fn names(&self, address: usize, named: usize, at: usize) -> bool {
        self.0(address % PAGE, named, at % PAGE)
    }
}

/// Those from the page's beginning on.
pub fn from_the_beginning(_: usize, named: usize, at: usize) -> bool {
    at < named
}

/// Those up to the page's end, and none from its beginning on.
pub fn up_to_the_end(from: usize, named: usize, at: usize) -> bool {
    (from..from + named).contains(&at)
}

/// One less.
pub fn one_less(from: usize, named: usize, at: usize) -> bool {
    Paper.names(from, named - 1, at)
}

/// A kind acts on the area of another one.
pub struct Reaches {
    pub kind: u8,
    pub like: fn(usize) -> Cycle,
}

impl Model for Reaches {
    fn area(&self, r: &Record, cycle: &Cycle) -> Range<usize> {
        match cycle.address() {
            Some(address) if cycle.kind() == self.kind => (self.like)(address).area(r.figures()),
            _ => Paper.area(r, cycle),
        }
    }
}

/// A kind lasts as long as another one.
pub struct Lasts {
    pub kind: u8,
    pub like: fn(&Record) -> u32,
}

impl Model for Lasts {
    fn duration(&self, r: &Record, cycle: &Cycle) -> u32 {
        match cycle.kind() == self.kind {
            true => (self.like)(r),
            false => Paper.duration(r, cycle),
        }
    }
}

/// Bits missing are counted in a page write, too.
pub struct CountsPageWrites;

impl Model for CountsPageWrites {
    fn told(&self, r: &Record, array: &[u8], sent: &[u8], number: u8) -> u32 {
        match (number, sent) {
            (0, [PW, ..]) => Paper.missing(array, address(r.figures(), sent), &sent[4..]),
            _ => Paper.told(r, array, sent, number),
        }
    }
}

/// A number of bytes named above 256, for more data bytes.
pub fn every_byte_named(_: &Record, sent: &[u8], cycle: &mut Cycle) {
    if let Cycle::PageWrite { named, .. } = cycle {
        *named = sent.len() - 4;
    }
}

/// All of the page is named.
pub fn page_named(_: &Record, _: &[u8], cycle: &mut Cycle) {
    if let Cycle::PageWrite { named, .. } = cycle {
        *named = PAGE;
    }
}

/// With more than 256 data bytes the address goes on to the first that counts.
pub fn address_of_the_last(_: &Record, sent: &[u8], cycle: &mut Cycle) {
    if let Cycle::PageWrite { address, .. } = cycle {
        let over = (sent.len() - 4).saturating_sub(PAGE);
        *address = *address / PAGE * PAGE + (*address + over) % PAGE;
    }
}

/// Of more than 256 data bytes the first 256 count.
pub fn first_bytes(_: &Record, sent: &[u8], cycle: &mut Cycle) {
    if let Cycle::PageWrite { address, slots, .. } = cycle {
        *slots = Paper.slots(*address, &sent[4..sent.len().min(4 + PAGE)]);
    }
}

/// The start of the page or of the subsector in place of the address sent.
pub fn start_of_the_erased(_: &Record, _: &[u8], cycle: &mut Cycle) {
    match cycle {
        Cycle::PageErase { address } => *address -= *address % PAGE,
        Cycle::SubsectorErase { address } => *address -= *address % SUBSECTOR,
        _ => {}
    }
}

/// Power-up in a page write leaves what was there.
pub struct PowerUpForgetsThePageWrite;

impl Model for PowerUpForgetsThePageWrite {
    fn power_up(&self, record: &mut [u8], array: &mut [u8]) -> Outcome {
        let cycle = Paper.unpack(record).ok().and_then(|r| r.cycle());
        match cycle {
            Some(Cycle::PageWrite { .. }) => Paper.power_up(record, &mut array.to_vec()),
            _ => Paper.power_up(record, array),
        }
    }
}

/// Power-up in a page write leaves the named bytes erased.
pub struct PowerUpErasesThePageWrite;

impl Model for PowerUpErasesThePageWrite {
    fn power_up(&self, record: &mut [u8], array: &mut [u8]) -> Outcome {
        let cycle = Paper.unpack(record).ok().and_then(|r| r.cycle());
        match cycle {
            Some(Cycle::PageWrite { .. }) => Paper.loss(record, array, &[0xFF; PAGE], 1),
            _ => Paper.power_up(record, array),
        }
    }
}
