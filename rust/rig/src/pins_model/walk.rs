//! The pins alone, sample by sample: which transactions there are, and how far the output has moved on.

use super::{CLOCK, DATA, HOLD, REST, SELECT, W};
use crate::model::Paper;

/// The hold of a selected chip.
#[derive(Clone, Copy, Debug, PartialEq, Eq)]
pub enum Holding {
    No,
    /// Hold fell with the clock high: the hold starts when the clock next falls.
    StartWaits,
    Yes,
    /// Hold rose with the clock high: the hold ends when the clock next falls.
    EndWaits,
}

/// How a transaction ended.
#[derive(Clone, Copy, Debug, PartialEq, Eq)]
pub enum End {
    /// Select rose outside a hold, with W at this level.
    Risen { w: bool },
    /// Select rose in a hold.
    ThrownAway,
    /// The samples ended first.
    Unfinished,
}

/// A transaction found: Select is low after samples from..to.
#[derive(Clone, Debug, PartialEq, Eq)]
pub struct Found {
    pub from: usize,
    pub to: usize,
    pub bits: Vec<bool>,
    pub end: End,
}

impl Found {
    /// The whole bytes, most significant bit first.
    pub fn sent(&self) -> Vec<u8> {
        let byte = |bits: &[bool]| bits.iter().fold(0, |byte, bit| byte << 1 | u8::from(*bit));
        self.bits.chunks_exact(8).map(byte).collect()
    }

    /// The further pulses.
    pub fn pulses(&self) -> u32 {
        (self.bits.len() % 8) as u32
    }
}

/// What the pins tell: the transactions in order, and for each sample the number of bits that were
/// taken as the output last moved on; none with Select high, in a hold, or before it moved.
pub struct Walk {
    pub found: Vec<Found>,
    pub shown: Vec<Option<usize>>,
}

/// The pins between two samples.
pub struct Pins {
    pub levels: u8,
    /// The levels before the sample that is being taken.
    pub before: u8,
    pub holding: Holding,
    /// How many bits were taken as the output last moved on.
    pub moved: Option<usize>,
    /// The bits of the running transaction.
    pub bits: Vec<bool>,
    samples: usize,
    from: usize,
    found: Vec<Found>,
}

impl Pins {
    pub fn new(levels: u8) -> Pins {
        let (bits, found) = (Vec::new(), Vec::new());
        let (holding, moved, samples, from) = (Holding::No, None, 0, 0);
        Pins { levels, before: levels, holding, moved, bits, samples, from, found }
    }

    pub fn selected(&self) -> bool {
        !self.high(SELECT)
    }

    pub fn high(&self, pin: u8) -> bool {
        self.levels & pin != 0
    }

    /// In a hold, one whose end still waits included.
    pub fn held(&self) -> bool {
        matches!(self.holding, Holding::Yes | Holding::EndWaits)
    }

    fn set(&mut self, pins: u8, now: u8) {
        self.levels = self.levels & !pins | now & pins;
    }

    /// A transaction begins, outside a hold.
    pub fn open(&mut self) {
        self.from = self.samples;
        self.bits.clear();
        self.moved = None;
        self.holding = Holding::No;
    }

    pub fn close(&mut self, end: End) {
        let bits = std::mem::take(&mut self.bits);
        self.found.push(Found { from: self.from, to: self.samples, bits, end });
    }
}

/// The rules of the pins.
pub trait Walking: Sync {
    fn walk(&self, samples: &[u8]) -> Walk {
        let mut pins = Pins::new(self.rest(samples));
        let shown = samples.iter().map(|sample| self.sample(&mut pins, *sample)).collect();
        if pins.selected() {
            pins.close(End::Unfinished);
        }
        Walk { found: pins.found, shown }
    }

    /// The pins before the first sample.
    fn rest(&self, _: &[u8]) -> u8 {
        REST
    }

    /// One sample: data and W are its levels; the other pins change in their order.
    fn sample(&self, pins: &mut Pins, now: u8) -> Option<usize> {
        pins.before = pins.levels;
        pins.set(DATA | W, now);
        for pin in self.order() {
            let was = pins.high(pin);
            pins.set(pin, now);
            match (was, pins.high(pin)) {
                (false, true) => self.rises(pins, pin),
                (true, false) => self.falls(pins, pin),
                _ => {}
            }
        }
        pins.samples += 1;
        self.shown(pins)
    }

    /// A Select change is taken first, then the clock, then Hold.
    fn order(&self) -> [u8; 3] {
        [SELECT, CLOCK, HOLD]
    }

    /// With Select low and no hold the output shows what it has moved on to.
    fn shown(&self, pins: &Pins) -> Option<usize> {
        pins.moved.filter(|_| pins.selected() && !pins.held())
    }

    fn falls(&self, pins: &mut Pins, pin: u8) {
        match pin {
            SELECT => self.select_falls(pins),
            CLOCK if pins.selected() => self.clock_falls(pins),
            HOLD if pins.selected() => self.hold_falls(pins),
            _ => {}
        }
    }

    fn rises(&self, pins: &mut Pins, pin: u8) {
        match pin {
            SELECT => self.select_rises(pins),
            CLOCK if pins.selected() => self.clock_rises(pins),
            HOLD if pins.selected() => self.hold_rises(pins),
            _ => {}
        }
    }

    /// A transaction begins; Hold low, as it was before this sample, counts as a fall now.
    fn select_falls(&self, pins: &mut Pins) {
        pins.open();
        if !pins.high(HOLD) {
            self.hold_falls(pins);
        }
    }

    /// The transaction ends; in a hold it is thrown away.
    fn select_rises(&self, pins: &mut Pins) {
        let w = pins.high(W);
        pins.close(if pins.held() { End::ThrownAway } else { End::Risen { w } });
    }

    /// Outside a hold a bit is taken.
    fn clock_rises(&self, pins: &mut Pins) {
        if !pins.held() {
            pins.bits.push(pins.high(DATA));
        }
    }

    /// Outside a hold the output moves on; then a waiting start or end comes about.
    fn clock_falls(&self, pins: &mut Pins) {
        match pins.holding {
            Holding::No => self.move_on(pins),
            Holding::StartWaits => {
                self.move_on(pins);
                pins.holding = Holding::Yes;
            }
            Holding::Yes => {}
            Holding::EndWaits => self.hold_ends(pins),
        }
    }

    fn move_on(&self, pins: &mut Pins) {
        pins.moved = Some(pins.bits.len());
    }

    fn hold_ends(&self, pins: &mut Pins) {
        pins.holding = Holding::No;
    }

    /// The hold starts if the clock is low, or else waits; a waiting end is undone.
    fn hold_falls(&self, pins: &mut Pins) {
        pins.holding = match pins.holding {
            Holding::No if pins.high(CLOCK) => Holding::StartWaits,
            Holding::No | Holding::EndWaits => Holding::Yes,
            other => other,
        };
    }

    /// The hold ends if the clock is low, or else waits; a waiting start is undone.
    fn hold_rises(&self, pins: &mut Pins) {
        match pins.holding {
            Holding::Yes if pins.high(CLOCK) => pins.holding = Holding::EndWaits,
            Holding::Yes => self.hold_ends(pins),
            Holding::StartWaits => pins.holding = Holding::No,
            _ => {}
        }
    }
}

impl Walking for Paper {}
