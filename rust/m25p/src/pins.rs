//! Raw pins: the bits of a sample, and the output that is not driven.

/// Chip Select, low while a transaction runs.
pub const SELECT: u8 = 0x01;

/// The clock.
pub const CLOCK: u8 = 0x02;

/// Data in.
pub const DATA: u8 = 0x04;

/// Write Protect.
pub const W: u8 = 0x08;

/// Hold, low to hold.
pub const HOLD: u8 = 0x10;

/// The pins before the first sample: Select, W and Hold high, clock and data low.
pub const REST: u8 = SELECT | W | HOLD;

/// An output byte where the chip does not drive; a driven one is 0 or 1.
pub const NOT_DRIVEN: u8 = 2;
