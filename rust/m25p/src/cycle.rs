//! The cycle that is running, as the packed record has it.

use crate::RECORD_BYTES;

/// What the chip is busy with. It comes about with the last tick, and is cut by a power loss before.
#[derive(Clone, Copy, Debug, PartialEq, Eq, Hash)]
pub enum Cycle {
    /// A page program, with the address that was sent, modulo the part's size.
    Program {
        /// In the page.
        address: u32,
    },
    /// A sector erase, with the address that was sent, modulo the part's size.
    SectorErase {
        /// In the sector.
        address: u32,
    },
    /// A bulk erase.
    BulkErase,
    /// A status write.
    StatusWrite {
        /// The block protect bits as they are to be.
        bp: u8,
        /// Status register write disable as it is to be.
        srwd: bool,
    },
    /// A page write, with the address that was sent, modulo the part's size.
    PageWrite {
        /// In the page.
        address: u32,
        /// How many bytes of the page are written, from the address on and then from the page's beginning on: 1 to 256.
        named: u32,
    },
    /// A page erase, with the address that was sent, modulo the part's size.
    PageErase {
        /// In the page.
        address: u32,
    },
    /// A subsector erase, with the address that was sent, modulo the part's size.
    SubsectorErase {
        /// In the subsector.
        address: u32,
    },
}

impl Cycle {
    /// That of a sound record, if one is running.
    pub(crate) fn of(record: &[u8; RECORD_BYTES]) -> Option<Cycle> {
        let number = |at: usize| {
            u32::from_le_bytes([record[at], record[at + 1], record[at + 2], record[at + 3]])
        };
        let address = number(32);
        match record[28] {
            0 => None,
            1 => Some(Cycle::Program { address }),
            2 => Some(Cycle::SectorErase { address }),
            3 => Some(Cycle::BulkErase),
            4 => Some(Cycle::StatusWrite { bp: record[29], srwd: record[30] == 1 }),
            5 => Some(Cycle::PageWrite { address, named: number(292) }),
            6 => Some(Cycle::PageErase { address }),
            _ => Some(Cycle::SubsectorErase { address }),
        }
    }
}
