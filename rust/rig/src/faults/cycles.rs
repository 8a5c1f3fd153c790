//! Deliberate faults of cycles: what starts, what is remembered, and how waiting and power-up end it.

use super::amend;
use crate::model::*;

/// The new settings show while busy.
pub struct SettingsAtTheStart;

impl Model for SettingsAtTheStart {
    fn in_cycle(&self, r: &mut Record, left: u32, cycle: Cycle) {
        Paper.in_cycle(r, left, cycle);
        Paper.settle(r, &cycle);
    }
}

/// A status write that changes nothing is no cycle.
pub struct EqualSettingsAtOnce;

impl Model for EqualSettingsAtOnce {
    fn change(&self, r: &mut Record, sent: &[u8]) {
        let equal = Cycle::Settings { bp: r.bp, srwd: r.srwd };
        match self.started(r, sent) {
            Some(cycle) if cycle == equal => *r = r.rested(),
            _ => Paper.change(r, sent),
        }
    }
}

/// Something else is remembered than what starts.
pub struct Remembers(pub fn(&Record, &[u8], &mut Cycle));

impl Model for Remembers {
    fn started(&self, r: &Record, sent: &[u8]) -> Option<Cycle> {
        let mut cycle = Paper.started(r, sent)?;
        self.0(r, sent, &mut cycle);
        Some(cycle)
    }
}

/// The start of the page in place of the address sent.
pub fn start_of_page(_: &Record, _: &[u8], cycle: &mut Cycle) {
    if let Cycle::Program { address, .. } = cycle {
        *address -= *address % PAGE;
    }
}

/// The start of the sector in place of the address sent.
pub fn start_of_sector(r: &Record, _: &[u8], cycle: &mut Cycle) {
    if let Cycle::SectorErase { address } = cycle {
        *address -= *address % r.figures().sector_bytes;
    }
}

/// The address before it is reduced.
pub fn address_as_sent(_: &Record, sent: &[u8], cycle: &mut Cycle) {
    if let Cycle::Program { address, .. } | Cycle::SectorErase { address } = cycle {
        *address = full_address(sent);
    }
}

/// Slots of 00 where no data of a program went.
pub fn empty_slots(r: &Record, sent: &[u8], cycle: &mut Cycle) {
    if let Cycle::Program { slots, .. } = cycle {
        empty(r, sent, slots);
    }
}

/// Slots of 00 where no data of a page write went.
pub fn empty_slots_written(r: &Record, sent: &[u8], cycle: &mut Cycle) {
    if let Cycle::PageWrite { slots, .. } = cycle {
        empty(r, sent, slots);
    }
}

fn empty(r: &Record, sent: &[u8], slots: &mut [u8; PAGE]) {
    let (start, data) = (address(r.figures(), sent), &sent[4..]);
    let unreached = |slot: &usize| Paper.wanted(start, data, *slot).is_none();
    (0..PAGE).filter(unreached).for_each(|slot| slots[slot] = 0x00);
}

/// Waiting just the ticks left does not end the cycle.
pub struct LastTickMissed;

impl Model for LastTickMissed {
    fn wait(&self, record: &mut [u8], array: &mut [u8], ticks: u32) -> Outcome {
        match Paper.lent(record, array) {
            Ok(Record { mode: Mode::Busy(left, _), .. }) if left == ticks => Outcome::only(0),
            _ => Paper.wait(record, array, ticks),
        }
    }
}

/// The effect comes when one tick is left.
pub struct EffectOneTickEarly;

impl Model for EffectOneTickEarly {
    fn wait(&self, record: &mut [u8], array: &mut [u8], ticks: u32) -> Outcome {
        let outcome = Paper.wait(record, array, ticks);
        if let Ok(Record { mode: Mode::Busy(1, cycle), .. }) = Paper.lent(record, array) {
            amend(record, |r| Paper.complete(r, array, &cycle));
        }
        outcome
    }
}

/// A wait to the cycle's end leaves the array as it was.
pub struct WaitForgetsTheArray;

impl Model for WaitForgetsTheArray {
    fn wait(&self, record: &mut [u8], array: &mut [u8], ticks: u32) -> Outcome {
        Paper.wait(record, &mut array.to_vec(), ticks)
    }
}

/// A wait to the cycle's end leaves the settings as they were.
pub struct WaitForgetsTheSettings;

impl Model for WaitForgetsTheSettings {
    fn wait(&self, record: &mut [u8], array: &mut [u8], ticks: u32) -> Outcome {
        let settings = [record.get(1).copied(), record.get(2).copied()];
        let outcome = Paper.wait(record, array, ticks);
        if let (0, [Some(bp), Some(srwd)]) = (outcome.answer, settings) {
            (record[1], record[2]) = (bp, srwd);
        }
        outcome
    }
}

/// Whether the place of a cycle is protected now.
pub fn in_a_protected_place(r: &Record, cycle: &Cycle) -> bool {
    match cycle.address() {
        Some(address) => r.protects(address),
        None => *cycle == Cycle::BulkErase && r.protects_any(),
    }
}

/// Protection is asked once more as a cycle ends.
pub struct ProtectedAtTheEnd;

impl Model for ProtectedAtTheEnd {
    fn complete(&self, r: &mut Record, array: &mut [u8], cycle: &Cycle) {
        if !in_a_protected_place(r, cycle) {
            Paper.complete(r, array, cycle);
        }
    }
}

/// Waiting does not look at the array's length unless the cycle ends.
pub struct LengthAtTheEndAlone;

impl Model for LengthAtTheEndAlone {
    fn wait(&self, record: &mut [u8], array: &mut [u8], ticks: u32) -> Outcome {
        match Paper.unpack(record) {
            Ok(r) if !matches!(r.mode, Mode::Busy(left, _) if left <= ticks) => {
                Paper.wait(record, &mut vec![0; r.figures().bytes], ticks)
            }
            _ => Paper.wait(record, array, ticks),
        }
    }
}

/// The latch is the same all through a cycle.
pub struct LatchInCycle(pub bool);

impl Model for LatchInCycle {
    fn in_cycle(&self, r: &mut Record, left: u32, cycle: Cycle) {
        r.mode = Mode::Busy(left, cycle);
        r.latch = self.0;
    }
}

/// The latch outlives the cycle.
pub struct LatchKeptAfterCycle;

impl Model for LatchKeptAfterCycle {
    fn wait(&self, record: &mut [u8], array: &mut [u8], ticks: u32) -> Outcome {
        let latch = Paper.unpack(record).is_ok_and(|r| r.latch);
        let outcome = Paper.wait(record, array, ticks);
        if outcome.answer == 0 {
            amend(record, |r| {
                if r.mode == Mode::Standby {
                    r.latch = latch;
                }
            });
        }
        outcome
    }
}

/// Power-up leaves a deep power-down record in that mode.
pub struct PowerUpKeepsDeep;

impl Model for PowerUpKeepsDeep {
    fn power_up(&self, record: &mut [u8], array: &mut [u8]) -> Outcome {
        let deep = Paper.unpack(record).is_ok_and(|r| r.mode == Mode::Deep);
        let outcome = Paper.power_up(record, array);
        if deep && outcome.answer == 0 {
            amend(record, |r| r.mode = Mode::Deep);
        }
        outcome
    }
}

/// Power-up resets BP and SRWD.
pub struct PowerUpClearsSettings;

impl Model for PowerUpClearsSettings {
    fn power_up(&self, record: &mut [u8], array: &mut [u8]) -> Outcome {
        let outcome = Paper.power_up(record, array);
        if outcome.answer == 0 {
            amend(record, |r| (r.bp, r.srwd) = (0, false));
        }
        outcome
    }
}

/// Power-up leaves the array as it was in a cycle.
pub struct PowerUpForgetsTheArray;

impl Model for PowerUpForgetsTheArray {
    fn power_up(&self, record: &mut [u8], array: &mut [u8]) -> Outcome {
        Paper.power_up(record, &mut array.to_vec())
    }
}

/// Power-up in a status write leaves the old settings.
pub struct PowerUpForgetsTheSettings;

impl Model for PowerUpForgetsTheSettings {
    fn power_up(&self, record: &mut [u8], array: &mut [u8]) -> Outcome {
        match Paper.lent(record, array) {
            Ok(r) if matches!(r.cycle(), Some(Cycle::Settings { .. })) => {
                record.copy_from_slice(&r.rested().pack());
                Outcome::only(0)
            }
            _ => Paper.power_up(record, array),
        }
    }
}
