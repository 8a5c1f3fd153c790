//! Samples as a probe writes them for cleanly clocked transactions, in SPI mode 0 or 3.

use m25p::pins::{CLOCK, DATA, HOLD, REST, SELECT, W};

/// The two SPI modes of these chips.
#[derive(Clone, Copy, Debug, PartialEq, Eq)]
pub enum SpiMode {
    /// The clock is low between transactions.
    Zero,
    /// The clock is high between transactions.
    Three,
}

/// The samples so far; each half of a clock period is `half` samples long.
pub struct Probe {
    pub samples: Vec<u8>,
    mode: SpiMode,
    half: usize,
}

impl Probe {
    /// Begins with the pins between two transactions.
    pub fn new(mode: SpiMode, half: usize) -> Probe {
        let mut probe = Probe { samples: Vec::new(), mode, half };
        probe.rest();
        probe
    }

    fn idle(&self) -> u8 {
        match self.mode {
            SpiMode::Zero => 0,
            SpiMode::Three => CLOCK,
        }
    }

    fn hold(&mut self, levels: u8) {
        self.samples.extend(std::iter::repeat_n(levels, self.half));
    }

    /// Half a period between two transactions.
    pub fn rest(&mut self) {
        self.hold(REST | self.idle());
    }

    /// A transaction whose further pulses have their data low, then half a period of rest.
    pub fn transaction(&mut self, sent: &[u8], pulses: u32, w: bool) {
        self.begin(sent, pulses, w);
        let w = if w { W } else { 0 };
        self.hold(SELECT | HOLD | w | self.idle());
        self.rest();
    }

    /// The same up to the point where Select would rise.
    pub fn begin(&mut self, sent: &[u8], pulses: u32, w: bool) {
        let low = HOLD | if w { W } else { 0 };
        self.hold(low | self.idle());
        let bits = sent.iter().flat_map(|byte| (0..8).rev().map(move |bit| byte >> bit & 1));
        let further = std::iter::repeat_n(0, pulses as usize);
        for bit in bits.chain(further) {
            let data = if bit == 1 { DATA } else { 0 };
            self.hold(low | data);
            self.hold(low | data | CLOCK);
        }
        if self.mode == SpiMode::Zero {
            self.hold(low);
        }
    }
}
