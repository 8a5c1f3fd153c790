//! Deliberate faults of power losses.

use super::amend;
use crate::model::*;

/// A byte of a cut cycle is something else: from the cycle, the old byte, its place and the mask.
pub struct CutByte(pub fn(&Cycle, u8, usize, &[u8]) -> u8);

impl Model for CutByte {
    fn cut_short(&self, cycle: &Cycle, old: u8, at: usize, mask: &[u8]) -> u8 {
        self.0(cycle, old, at, mask)
    }
}

/// A cut program ors.
pub fn program_ors(cycle: &Cycle, old: u8, at: usize, mask: &[u8]) -> u8 {
    match cycle {
        Cycle::Program { slots, .. } => old | slots[at % PAGE] | mask[at % PAGE],
        _ => Paper.cut_short(cycle, old, at, mask),
    }
}

/// A cut program is complete.
pub fn program_completes(cycle: &Cycle, old: u8, at: usize, mask: &[u8]) -> u8 {
    match cycle {
        Cycle::Program { .. } => Paper.completed(cycle, old, at),
        _ => Paper.cut_short(cycle, old, at, mask),
    }
}

/// A cut program takes its mask where it should take slot or mask.
pub fn program_of_the_mask(cycle: &Cycle, old: u8, at: usize, mask: &[u8]) -> u8 {
    match cycle {
        Cycle::Program { .. } => old & mask[at % PAGE],
        _ => Paper.cut_short(cycle, old, at, mask),
    }
}

/// A cut erase of the M25P parts leaves the mask.
pub fn erase_leaves_the_mask(cycle: &Cycle, old: u8, at: usize, mask: &[u8]) -> u8 {
    match cycle {
        Cycle::SectorErase { .. } | Cycle::BulkErase => mask[at % PAGE],
        _ => Paper.cut_short(cycle, old, at, mask),
    }
}

/// A cut erase of the M25P parts is absent.
pub fn erase_is_absent(cycle: &Cycle, old: u8, at: usize, mask: &[u8]) -> u8 {
    match cycle {
        Cycle::SectorErase { .. } | Cycle::BulkErase => old,
        _ => Paper.cut_short(cycle, old, at, mask),
    }
}

/// A cut erase of a page or a subsector is complete.
pub fn small_erase_completes(cycle: &Cycle, old: u8, at: usize, mask: &[u8]) -> u8 {
    match cycle {
        Cycle::PageErase { .. } | Cycle::SubsectorErase { .. } => 0xFF,
        _ => Paper.cut_short(cycle, old, at, mask),
    }
}

/// A cut page write acts on the whole page.
pub fn named_forgotten(cycle: &Cycle, old: u8, at: usize, mask: &[u8]) -> u8 {
    match cycle {
        Cycle::PageWrite { .. } => old | mask[at % PAGE],
        _ => Paper.cut_short(cycle, old, at, mask),
    }
}

/// A cut page write is complete.
pub fn page_write_completes(cycle: &Cycle, old: u8, at: usize, mask: &[u8]) -> u8 {
    match cycle {
        Cycle::PageWrite { .. } => Paper.completed(cycle, old, at),
        _ => Paper.cut_short(cycle, old, at, mask),
    }
}

/// A cut page write has cleared bits, as a cut program has.
pub fn page_write_programs(cycle: &Cycle, old: u8, at: usize, mask: &[u8]) -> u8 {
    match *cycle {
        Cycle::PageWrite { address, slots, .. } => {
            Paper.cut_short(&Cycle::Program { address, slots }, old, at, mask)
        }
        _ => Paper.cut_short(cycle, old, at, mask),
    }
}

/// The mask is taken at the array's index; behind its end it is 00.
pub fn mask_at_the_index(cycle: &Cycle, old: u8, at: usize, mask: &[u8]) -> u8 {
    let mask = [mask.get(at).copied().unwrap_or(0x00); PAGE];
    Paper.cut_short(cycle, old, at, &mask)
}

/// The mask is taken from the address on.
pub fn mask_from_the_address(cycle: &Cycle, old: u8, at: usize, mask: &[u8]) -> u8 {
    let from = cycle.address().unwrap_or(0);
    Paper.cut_short(cycle, old, at, &[mask[(at + PAGE - from % PAGE) % PAGE]; PAGE])
}

/// The mask is upside down.
pub fn mask_upside_down(cycle: &Cycle, old: u8, at: usize, mask: &[u8]) -> u8 {
    Paper.cut_short(cycle, old, at, &[!mask[at % PAGE]; PAGE])
}

/// A loss of the paper, and then something more: from the record before, and whether it is a yes.
pub struct Afterwards(pub fn(&Record, bool, &mut [u8]));

impl Model for Afterwards {
    fn loss(&self, record: &mut [u8], array: &mut [u8], mask: &[u8], yes: u32) -> Outcome {
        let before = Paper.unpack(record);
        let outcome = Paper.loss(record, array, mask, yes);
        if let (0, Ok(before)) = (outcome.answer, before) {
            self.0(&before, yes != 0, record);
        }
        outcome
    }
}

/// The bytes of the cycle stay.
pub fn cycle_stays(before: &Record, _: bool, record: &mut [u8]) {
    record[CYCLE_AT..LOCKS_AT].copy_from_slice(&before.pack()[CYCLE_AT..LOCKS_AT]);
}

/// The lock registers stay.
pub fn locks_stay(before: &Record, _: bool, record: &mut [u8]) {
    record[LOCKS_AT..].copy_from_slice(&before.locks);
}

/// The lock registers stay unless a cycle is cut.
pub fn locks_stay_at_rest(before: &Record, _: bool, record: &mut [u8]) {
    if before.cycle().is_none() {
        record[LOCKS_AT..].copy_from_slice(&before.locks);
    }
}

/// A busy record stays busy.
pub fn busy_stays(before: &Record, _: bool, record: &mut [u8]) {
    if before.cycle().is_some() {
        record.copy_from_slice(&before.pack());
    }
}

/// The latch stays.
pub fn latch_stays(before: &Record, _: bool, record: &mut [u8]) {
    amend(record, |r| r.latch = before.latch);
}

/// Deep power-down stays.
pub fn deep_stays(before: &Record, _: bool, record: &mut [u8]) {
    if before.mode == Mode::Deep {
        amend(record, |r| r.mode = Mode::Deep);
    }
}

/// BP and SRWD are reset.
pub fn settings_are_reset(_: &Record, _: bool, record: &mut [u8]) {
    amend(record, |r| (r.bp, r.srwd) = (0, false));
}

/// A status write is complete on no, too.
pub fn no_completes(before: &Record, yes: bool, record: &mut [u8]) {
    if let (Some(cycle), false) = (before.cycle(), yes) {
        amend(record, |r| Paper.settle(r, &cycle));
    }
}

/// A status write is absent on yes, too.
pub fn yes_is_absent(before: &Record, _: bool, record: &mut [u8]) {
    amend(record, |r| (r.bp, r.srwd) = (before.bp, before.srwd));
}

/// A cut status write is reset.
pub fn cut_settings_are_reset(before: &Record, yes: bool, record: &mut [u8]) {
    if let (Some(Cycle::Settings { .. }), false) = (before.cycle(), yes) {
        amend(record, |r| (r.bp, r.srwd) = (0, false));
    }
}

/// Yes is cut down to 8 bits.
pub struct YesCutToAByte;

impl Model for YesCutToAByte {
    fn loss(&self, record: &mut [u8], array: &mut [u8], mask: &[u8], yes: u32) -> Outcome {
        Paper.loss(record, array, mask, yes & 0xFF)
    }
}

/// In its last tick a cycle is complete.
pub struct LastTickIsSafe;

impl Model for LastTickIsSafe {
    fn loss(&self, record: &mut [u8], array: &mut [u8], mask: &[u8], yes: u32) -> Outcome {
        let before = Paper.unpack(record).map(|r| r.mode);
        match before {
            Ok(Mode::Busy(1, _)) if mask.len() == PAGE => Paper.power_up(record, array),
            _ => Paper.loss(record, array, mask, yes),
        }
    }
}

/// A cut sector erase goes over the whole array.
pub struct CutReachesAll;

impl Model for CutReachesAll {
    fn cut(&self, r: &mut Record, array: &mut [u8], cycle: &Cycle, mask: &[u8], yes: u32) {
        let cycle = match cycle {
            Cycle::SectorErase { .. } => &Cycle::BulkErase,
            _ => cycle,
        };
        Paper.cut(r, array, cycle, mask, yes);
    }
}

/// A mask of another length is taken where it is not used.
pub struct UnusedMaskUnchecked;

impl Model for UnusedMaskUnchecked {
    fn loss(&self, record: &mut [u8], array: &mut [u8], mask: &[u8], yes: u32) -> Outcome {
        let cycle = Paper.unpack(record).ok().and_then(|r| r.cycle());
        match cycle {
            None | Some(Cycle::Settings { .. }) => Paper.loss(record, array, &[0; PAGE], yes),
            _ => Paper.loss(record, array, mask, yes),
        }
    }
}

/// The mask's length is looked at before the array's.
pub struct MaskBeforeArray;

impl Model for MaskBeforeArray {
    fn loss(&self, record: &mut [u8], array: &mut [u8], mask: &[u8], yes: u32) -> Outcome {
        let outcome = Paper.loss(record, array, mask, yes);
        if outcome.answer == 2 && mask.len() != PAGE {
            return Outcome::only(41);
        }
        outcome
    }
}
