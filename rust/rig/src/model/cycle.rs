//! A cycle as a busy record remembers it, and its 268 packed bytes.

use std::ops::Range;

use super::part::Part;

/// The bytes of a page, the slots of a program, and the length of a mask.
pub const PAGE: usize = 256;

/// The bytes of a subsector.
pub const SUBSECTOR: usize = 4_096;

/// Where the slots begin among the packed bytes of a cycle, and where the number of bytes named does.
pub const SLOTS_AT: usize = 8;
pub const NAMED_AT: usize = SLOTS_AT + PAGE;

/// The packed bytes of a cycle: kind, new BP, new SRWD, a zero byte, the address, the slots, the number of bytes named.
pub const CYCLE_BYTES: usize = NAMED_AT + 4;

#[derive(Clone, Copy, Debug, PartialEq, Eq)]
pub enum Cycle {
    /// The address as sent, modulo the part's size, and what goes onto its page.
    Program {
        address: usize,
        slots: [u8; PAGE],
    },
    SectorErase {
        address: usize,
    },
    BulkErase,
    /// BP and SRWD as they are to be.
    Settings {
        bp: u8,
        srwd: bool,
    },
    /// As a program, and how many bytes were named, from the address on.
    PageWrite {
        address: usize,
        slots: [u8; PAGE],
        named: usize,
    },
    PageErase {
        address: usize,
    },
    SubsectorErase {
        address: usize,
    },
}

impl Cycle {
    /// Address, BP and the number of bytes named are within the part's, and the kind is one of its own.
    pub fn within(&self, part: &Part) -> bool {
        let named = match *self {
            Cycle::Settings { bp, .. } => bp <= part.highest_bp,
            Cycle::PageWrite { named, .. } => (1..=PAGE).contains(&named),
            _ => true,
        };
        let address = self.address().is_none_or(|address| address < part.bytes);
        named && address && usize::from(self.kind()) <= part.kinds()
    }

    /// The address, where the kind has one.
    pub fn address(&self) -> Option<usize> {
        match *self {
            Cycle::Program { address, .. } | Cycle::PageWrite { address, .. } => Some(address),
            Cycle::SectorErase { address } | Cycle::SubsectorErase { address } => Some(address),
            Cycle::PageErase { address } => Some(address),
            Cycle::BulkErase | Cycle::Settings { .. } => None,
        }
    }

    /// The bytes of the array that it acts on: a page, a subsector, a sector, all or none.
    pub fn area(&self, part: &Part) -> Range<usize> {
        let block = |address: usize, bytes: usize| {
            let start = address / bytes * bytes;
            start..start + bytes
        };
        match *self {
            Cycle::Program { address, .. } | Cycle::PageWrite { address, .. } => {
                block(address, PAGE)
            }
            Cycle::PageErase { address } => block(address, PAGE),
            Cycle::SubsectorErase { address } => block(address, SUBSECTOR),
            Cycle::SectorErase { address } => block(address, part.sector_bytes),
            Cycle::BulkErase => 0..part.bytes,
            Cycle::Settings { .. } => 0..0,
        }
    }

    /// The kind's number.
    pub fn kind(&self) -> u8 {
        match self {
            Cycle::Program { .. } => 1,
            Cycle::SectorErase { .. } => 2,
            Cycle::BulkErase => 3,
            Cycle::Settings { .. } => 4,
            Cycle::PageWrite { .. } => 5,
            Cycle::PageErase { .. } => 6,
            Cycle::SubsectorErase { .. } => 7,
        }
    }

    /// What the kind does not use is zero.
    pub fn pack(&self) -> [u8; CYCLE_BYTES] {
        let mut bytes = [0; CYCLE_BYTES];
        bytes[0] = self.kind();
        if let Some(address) = self.address() {
            bytes[4..SLOTS_AT].copy_from_slice(&(address as u32).to_le_bytes());
        }
        match *self {
            Cycle::Program { slots, .. } => bytes[SLOTS_AT..NAMED_AT].copy_from_slice(&slots),
            Cycle::PageWrite { slots, named, .. } => {
                bytes[SLOTS_AT..NAMED_AT].copy_from_slice(&slots);
                bytes[NAMED_AT..].copy_from_slice(&(named as u32).to_le_bytes());
            }
            Cycle::Settings { bp, srwd } => (bytes[1], bytes[2]) = (bp, u8::from(srwd)),
            _ => {}
        }
        bytes
    }

    /// The cycle of these bytes by its kind; what the kind does not use is not looked at.
    pub fn unpack(bytes: &[u8]) -> Option<Cycle> {
        let number = |at: usize| {
            u32::from_le_bytes([bytes[at], bytes[at + 1], bytes[at + 2], bytes[at + 3]]) as usize
        };
        let (address, named) = (number(4), number(NAMED_AT));
        let slots = bytes[SLOTS_AT..NAMED_AT].try_into().ok()?;
        match bytes[0] {
            1 => Some(Cycle::Program { address, slots }),
            2 => Some(Cycle::SectorErase { address }),
            3 => Some(Cycle::BulkErase),
            4 => Some(Cycle::Settings { bp: bytes[1], srwd: bytes[2] != 0 }),
            5 => Some(Cycle::PageWrite { address, slots, named }),
            6 => Some(Cycle::PageErase { address }),
            7 => Some(Cycle::SubsectorErase { address }),
            _ => None,
        }
    }
}
