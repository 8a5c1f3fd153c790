//! Deliberate faults of the pins alone: what a sample does.

use crate::model::Paper;
use crate::pins_model::*;

/// In a sample the clock is taken before Select.
pub struct ClockBeforeSelect;

impl Walking for ClockBeforeSelect {
    fn order(&self) -> [u8; 3] {
        [CLOCK, SELECT, HOLD]
    }
}

/// In a sample Hold is taken before the clock.
pub struct HoldBeforeClock;

impl Walking for HoldBeforeClock {
    fn order(&self) -> [u8; 3] {
        [SELECT, HOLD, CLOCK]
    }
}

/// In a sample Hold is taken before Select.
pub struct HoldBeforeSelect;

impl Walking for HoldBeforeSelect {
    fn order(&self) -> [u8; 3] {
        [HOLD, SELECT, CLOCK]
    }
}

/// The pins before the first sample are those of the first sample, with Select high.
pub struct RestIsFirstSample;

impl Walking for RestIsFirstSample {
    fn rest(&self, samples: &[u8]) -> u8 {
        samples.first().map_or(REST, |first| first | SELECT)
    }
}

/// Data is the level before the sample.
pub struct DataFromBefore;

impl Walking for DataFromBefore {
    fn clock_rises(&self, pins: &mut Pins) {
        if !pins.held() {
            pins.bits.push(pins.before & DATA != 0);
        }
    }
}

/// W is the level before the sample in which Select rises.
pub struct WFromBefore;

impl Walking for WFromBefore {
    fn select_rises(&self, pins: &mut Pins) {
        pins.levels = pins.levels & !W | pins.before & W;
        Paper.select_rises(pins);
    }
}

/// Hold low as Select falls is not seen.
pub struct LowHoldUnseen;

impl Walking for LowHoldUnseen {
    fn select_falls(&self, pins: &mut Pins) {
        pins.open();
    }
}

/// A hold starts with the clock high.
pub struct HoldStartsAtOnce;

impl Walking for HoldStartsAtOnce {
    fn hold_falls(&self, pins: &mut Pins) {
        pins.holding = Holding::Yes;
    }
}

/// A hold ends with the clock high.
pub struct HoldEndsAtOnce;

impl Walking for HoldEndsAtOnce {
    fn hold_rises(&self, pins: &mut Pins) {
        pins.holding = Holding::No;
    }
}

/// A fall of Hold with the clock high is not undone by its rise.
pub struct UndoneFallCounts;

impl Walking for UndoneFallCounts {
    fn hold_rises(&self, pins: &mut Pins) {
        if pins.holding != Holding::StartWaits {
            Paper.hold_rises(pins);
        }
    }
}

/// A rise of Hold with the clock high is not undone by its fall.
pub struct UndoneRiseCounts;

impl Walking for UndoneRiseCounts {
    fn hold_falls(&self, pins: &mut Pins) {
        if pins.holding != Holding::EndWaits {
            Paper.hold_falls(pins);
        }
    }
}

/// Select rising with a waiting start throws the transaction away.
pub struct WaitingStartThrows;

impl Walking for WaitingStartThrows {
    fn select_rises(&self, pins: &mut Pins) {
        if pins.holding == Holding::StartWaits {
            pins.holding = Holding::Yes;
        }
        Paper.select_rises(pins);
    }
}

/// Select rising with a waiting end carries the transaction out.
pub struct WaitingEndCarriesOut;

impl Walking for WaitingEndCarriesOut {
    fn select_rises(&self, pins: &mut Pins) {
        if pins.holding == Holding::EndWaits {
            pins.holding = Holding::No;
        }
        Paper.select_rises(pins);
    }
}

/// Select rising in a hold carries the transaction out.
pub struct HoldCarriesOut;

impl Walking for HoldCarriesOut {
    fn select_rises(&self, pins: &mut Pins) {
        pins.holding = Holding::No;
        Paper.select_rises(pins);
    }
}

/// Bits are taken in a hold.
pub struct TakesInHold;

impl Walking for TakesInHold {
    fn clock_rises(&self, pins: &mut Pins) {
        pins.bits.push(pins.high(DATA));
    }
}

/// A hold drops the bits of an unfinished byte.
pub struct HoldDropsBits;

impl Walking for HoldDropsBits {
    fn hold_ends(&self, pins: &mut Pins) {
        Paper.hold_ends(pins);
        pins.bits.truncate(pins.bits.len() / 8 * 8);
    }
}

/// The fall that begins a waiting hold does not move the output on.
pub struct WaitingStartKeepsBit;

impl Walking for WaitingStartKeepsBit {
    fn clock_falls(&self, pins: &mut Pins) {
        match pins.holding {
            Holding::StartWaits => pins.holding = Holding::Yes,
            _ => Paper.clock_falls(pins),
        }
    }
}

/// The output is driven in a hold.
pub struct DrivesInHold;

impl Walking for DrivesInHold {
    fn shown(&self, pins: &Pins) -> Option<usize> {
        pins.moved.filter(|_| pins.selected())
    }
}

/// After a hold nothing is driven until the next fall.
pub struct SilentAfterHold;

impl Walking for SilentAfterHold {
    fn hold_ends(&self, pins: &mut Pins) {
        Paper.hold_ends(pins);
        pins.moved = None;
    }
}

/// The output moves on as the clock rises.
pub struct MovesOnRise;

impl Walking for MovesOnRise {
    fn clock_rises(&self, pins: &mut Pins) {
        Paper.clock_rises(pins);
        pins.moved = Some(pins.bits.len());
    }

    fn move_on(&self, _: &mut Pins) {}
}

/// Each bit shows one fall late.
pub struct OneFallLate;

impl Walking for OneFallLate {
    fn move_on(&self, pins: &mut Pins) {
        pins.moved = pins.bits.len().checked_sub(1);
    }
}
