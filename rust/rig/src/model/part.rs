//! The seven parts and their protected areas: the five as the paper's two tables print them, the older M25P10-A of
//! Wish 4, and the M25PE40 of Wish 11 by its own sheet.

pub struct Part {
    pub bytes: usize,
    pub sectors: usize,
    pub sector_bytes: usize,
    /// None where the part has no Read Identification.
    pub identification: Option<[u8; 3]>,
    pub signature: Option<u8>,
    /// Deep power-down, and the release from it.
    pub deep: bool,
    /// Page write, page erase, subsector erase, and a lock register for each sector; a release that is nothing more.
    pub locks: bool,
    pub highest_bp: u8,
    /// How many of the highest sectors are protected, by BP.
    pub protected: &'static [usize],
}

impl Part {
    /// How many kinds of cycle it has.
    pub fn kinds(&self) -> usize {
        if self.locks {
            7
        } else {
            4
        }
    }
}

const FOUR_SECTORS: &[usize] = &[0, 1, 2, 4];
const EIGHT_SECTORS: &[usize] = &[0, 1, 2, 4, 8, 8, 8, 8];
const SIXTY_FOUR_SECTORS: &[usize] = &[0, 1, 2, 4, 8, 16, 32, 64];

/// The parts whose arrays are filled and compared quickly.
pub const SMALL: [usize; 5] = [0, 1, 2, 5, 6];

pub const PARTS: [Part; 7] = [
    Part {
        bytes: 4_096,
        sectors: 4,
        sector_bytes: 1_024,
        identification: Some([0x00, 0x00, 0x0C]),
        signature: Some(0x0B),
        deep: true,
        locks: false,
        highest_bp: 3,
        protected: FOUR_SECTORS,
    },
    Part {
        bytes: 131_072,
        sectors: 4,
        sector_bytes: 32_768,
        identification: Some([0x20, 0x20, 0x11]),
        signature: Some(0x10),
        deep: true,
        locks: false,
        highest_bp: 3,
        protected: FOUR_SECTORS,
    },
    Part {
        bytes: 524_288,
        sectors: 8,
        sector_bytes: 65_536,
        identification: Some([0x20, 0x20, 0x13]),
        signature: Some(0x12),
        deep: true,
        locks: false,
        highest_bp: 7,
        protected: EIGHT_SECTORS,
    },
    Part {
        bytes: 4_194_304,
        sectors: 64,
        sector_bytes: 65_536,
        identification: Some([0x20, 0x20, 0x16]),
        signature: Some(0x15),
        deep: true,
        locks: false,
        highest_bp: 7,
        protected: SIXTY_FOUR_SECTORS,
    },
    Part {
        bytes: 16_777_216,
        sectors: 64,
        sector_bytes: 262_144,
        identification: Some([0x20, 0x20, 0x18]),
        signature: None,
        deep: false,
        locks: false,
        highest_bp: 7,
        protected: SIXTY_FOUR_SECTORS,
    },
    Part {
        bytes: 131_072,
        sectors: 4,
        sector_bytes: 32_768,
        identification: None,
        signature: Some(0x10),
        deep: true,
        locks: false,
        highest_bp: 3,
        protected: FOUR_SECTORS,
    },
    Part {
        bytes: 524_288,
        sectors: 8,
        sector_bytes: 65_536,
        identification: Some([0x20, 0x80, 0x13]),
        signature: None,
        deep: true,
        locks: true,
        highest_bp: 7,
        protected: EIGHT_SECTORS,
    },
];
