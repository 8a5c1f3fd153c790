//! The parts: name, number, size, sectors and highest BP, one row for each.

use std::fmt;
use std::str::FromStr;

use crate::image;

/// A part that a [`Chip`](crate::Chip) can be delivered as.
#[derive(Clone, Copy, Debug, PartialEq, Eq, Hash)]
pub enum Part {
    /// A part of 4,096 bytes that exists only here, for small buffers.
    Bench,
    /// M25P10-A, 131,072 bytes.
    M25p10a,
    /// M25P40, 524,288 bytes.
    M25p40,
    /// M25P32, 4,194,304 bytes.
    M25p32,
    /// M25P128, 16,777,216 bytes.
    M25p128,
    /// The M25P10-A before process technology X and Y, 131,072 bytes: it has no Read Identification (9F).
    M25p10aOlder,
    /// M25PE40, 524,288 bytes: of another family, with page write, page erase, subsector erase, and a lock register for
    /// each sector.
    M25pe40,
}

/// The figures of a part.
struct Row {
    name: &'static str,
    number: u32,
    bytes: usize,
    sectors: usize,
    highest_bp: u8,
}

const fn row(number: u32, name: &'static str, bytes: usize, sectors: usize, highest_bp: u8) -> Row {
    Row { name, number, bytes, sectors, highest_bp }
}

impl Part {
    /// All parts, by number.
    pub const ALL: [Part; 7] = [
        Part::Bench,
        Part::M25p10a,
        Part::M25p40,
        Part::M25p32,
        Part::M25p128,
        Part::M25p10aOlder,
        Part::M25pe40,
    ];

    const fn row(self) -> Row {
        match self {
            Part::Bench => row(0, "bench", 4_096, 4, 3),
            Part::M25p10a => row(1, "M25P10-A", 131_072, 4, 3),
            Part::M25p40 => row(2, "M25P40", 524_288, 8, 7),
            Part::M25p32 => row(3, "M25P32", 4_194_304, 64, 7),
            Part::M25p128 => row(4, "M25P128", 16_777_216, 64, 7),
            Part::M25p10aOlder => row(5, "M25P10-A-older", 131_072, 4, 3),
            Part::M25pe40 => row(6, "M25PE40", 524_288, 8, 7),
        }
    }

    /// The name, as on the chip; `-older` tells the two M25P10-A apart.
    pub const fn name(self) -> &'static str {
        self.row().name
    }

    /// The number by which the C calls know the part.
    pub const fn number(self) -> u32 {
        self.row().number
    }

    /// The size of the array.
    pub const fn bytes(self) -> usize {
        self.row().bytes
    }

    /// How many sectors the array has, all of one size.
    pub const fn sectors(self) -> usize {
        self.row().sectors
    }

    /// The size of a sector.
    pub const fn sector_bytes(self) -> usize {
        self.bytes() / self.sectors()
    }

    /// How many blocks an [image](crate::image) of it has.
    pub const fn blocks(self) -> usize {
        self.bytes().div_ceil(image::ARRAY_BYTES)
    }

    /// The length of an [image](crate::image) of it.
    pub const fn image_bytes(self) -> usize {
        self.blocks() * image::BLOCK_BYTES
    }

    /// The highest value of the block protect bits BP.
    pub const fn highest_bp(self) -> u8 {
        self.row().highest_bp
    }

    /// The part with this number.
    pub fn numbered(number: u32) -> Option<Part> {
        Part::ALL.into_iter().find(|part| part.number() == number)
    }
}

impl fmt::Display for Part {
    fn fmt(&self, f: &mut fmt::Formatter) -> fmt::Result {
        f.pad(self.name())
    }
}

/// The name in capitals, small letters or both.
impl FromStr for Part {
    type Err = UnknownPart;

    fn from_str(name: &str) -> Result<Part, UnknownPart> {
        let named = Part::ALL.into_iter().find(|part| part.name().eq_ignore_ascii_case(name));
        named.ok_or_else(|| UnknownPart(name.to_string()))
    }
}

/// There is no part of this name.
#[derive(Clone, Debug, PartialEq, Eq)]
pub struct UnknownPart(pub String);

impl fmt::Display for UnknownPart {
    fn fmt(&self, f: &mut fmt::Formatter) -> fmt::Result {
        let known = Part::ALL.map(|part| format!("{} {}", part.number(), part.name()));
        write!(f, "There is no part {}; the parts are {}.", self.0, known.join(", "))
    }
}

impl std::error::Error for UnknownPart {}
