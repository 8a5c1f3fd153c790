//! Raw pins in plain, fast Rust with nothing proved: what the timing compares libm25p.a with.

mod chip;

use crate::model::{Record, RECORD_BYTES};
use crate::pins_model::{CLOCK, DATA, HOLD, MOST_BYTES, NOT_DRIVEN, REST, SELECT, W};
use chip::Chip;

/// What listens to the pins.
trait Listener {
    /// Select falls.
    fn begin(&mut self);
    /// A bit is taken.
    fn take(&mut self, bit: u8);
    /// The output moves on.
    fn move_on(&mut self);
    /// Select rises outside a hold.
    fn end(&mut self, w: bool);
}

/// Counts the bits of the longest transaction.
#[derive(Default)]
struct Longest {
    bits: usize,
    most: usize,
}

impl Listener for Longest {
    fn begin(&mut self) {
        self.bits = 0;
    }

    fn take(&mut self, _: u8) {
        self.bits += 1;
        self.most = self.most.max(self.bits);
    }

    fn move_on(&mut self) {}

    fn end(&mut self, _: bool) {}
}

#[derive(Clone, Copy, PartialEq, Eq)]
enum Holding {
    No,
    StartWaits,
    Yes,
    EndWaits,
}

struct Pins {
    before: u8,
    holding: Holding,
}

impl Pins {
    fn at_rest() -> Pins {
        Pins { before: REST, holding: Holding::No }
    }

    /// Whether the output shows: Select low and no hold.
    #[inline(always)]
    fn open(&self) -> bool {
        self.before & SELECT == 0 && matches!(self.holding, Holding::No | Holding::StartWaits)
    }

    #[inline(always)]
    fn sample(&mut self, now: u8, listener: &mut impl Listener) {
        let before = self.before;
        self.before = now;
        let changed = now ^ before;
        if changed & SELECT != 0 {
            self.select(before, now, listener);
        }
        if now & SELECT != 0 {
            return;
        }
        if changed & CLOCK != 0 {
            self.clock(now, listener);
        }
        if changed & HOLD != 0 {
            self.hold(now);
        }
    }

    fn select(&mut self, before: u8, now: u8, listener: &mut impl Listener) {
        if now & SELECT == 0 {
            listener.begin();
            self.holding = match (before & HOLD, before & CLOCK) {
                (0, 0) => Holding::Yes,
                (0, _) => Holding::StartWaits,
                _ => Holding::No,
            };
        } else if matches!(self.holding, Holding::No | Holding::StartWaits) {
            listener.end(now & W != 0);
        }
    }

    #[inline(always)]
    fn clock(&mut self, now: u8, listener: &mut impl Listener) {
        match (now & CLOCK != 0, self.holding) {
            (true, Holding::No) => listener.take(u8::from(now & DATA != 0)),
            (false, Holding::No) => listener.move_on(),
            (false, Holding::StartWaits) => {
                listener.move_on();
                self.holding = Holding::Yes;
            }
            (false, Holding::EndWaits) => self.holding = Holding::No,
            _ => {}
        }
    }

    fn hold(&mut self, now: u8) {
        self.holding = match (now & HOLD != 0, now & CLOCK != 0, self.holding) {
            (false, false, Holding::No) => Holding::Yes,
            (false, true, Holding::No) => Holding::StartWaits,
            (false, _, Holding::EndWaits) => Holding::Yes,
            (true, false, Holding::Yes) => Holding::No,
            (true, true, Holding::Yes) => Holding::EndWaits,
            (true, _, Holding::StartWaits) => Holding::No,
            (_, _, same) => same,
        };
    }
}

/// Carries a run out; the answer number and the bits missing.
pub fn run(record: &mut [u8], array: &[u8], samples: &[u8], output: &mut [u8]) -> (u8, u32) {
    if record.len() != RECORD_BYTES {
        return (8, 0);
    }
    let Some(unpacked) = Record::unpack(record) else { return (6, 0) };
    if array.len() != unpacked.figures().bytes {
        return (2, 0);
    }
    if samples.iter().fold(0, |all, sample| all | sample) > 0x1F {
        return (21, 0);
    }
    let mut longest = Longest::default();
    let mut pins = Pins::at_rest();
    for sample in samples {
        pins.sample(*sample, &mut longest);
    }
    if longest.most / 8 > MOST_BYTES {
        return (22, 0);
    }
    if output.len() < samples.len() {
        return (23, 0);
    }
    let mut chip = Chip::new(unpacked, array);
    let mut pins = Pins::at_rest();
    for (sample, shown) in samples.iter().zip(output) {
        pins.sample(*sample, &mut chip);
        *shown = if pins.open() { chip.shown } else { NOT_DRIVEN };
    }
    record.copy_from_slice(&chip.record.pack());
    (0, chip.missing)
}
