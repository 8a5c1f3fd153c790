//! How long the chip is busy.

/// The durations of the four cycles in ticks, each 1 to 1,000,000.
///
/// By default those of the bench program: 3 for a program, 5 for a sector erase, 9 for a bulk erase, 2 for
/// a status write.
#[derive(Clone, Copy, Debug, PartialEq, Eq)]
pub struct Durations {
    /// Of a page program, and of a page write and a page erase.
    pub program: u32,
    /// Of a sector erase, and of a subsector erase.
    pub sector_erase: u32,
    /// Of a bulk erase.
    pub bulk_erase: u32,
    /// Of a status write.
    pub write_status: u32,
}

impl Default for Durations {
    fn default() -> Durations {
        [3, 5, 9, 2].into()
    }
}

/// In the order of the fields.
impl From<[u32; 4]> for Durations {
    fn from([program, sector_erase, bulk_erase, write_status]: [u32; 4]) -> Durations {
        Durations { program, sector_erase, bulk_erase, write_status }
    }
}

impl From<Durations> for [u32; 4] {
    fn from(durations: Durations) -> [u32; 4] {
        let Durations { program, sector_erase, bulk_erase, write_status } = durations;
        [program, sector_erase, bulk_erase, write_status]
    }
}
