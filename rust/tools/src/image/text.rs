//! Bad blocks and totals as text.

use std::fmt::{self, Display, Formatter};

use m25p::image::{Lost, Reason, BLOCK_BYTES};
use m25p::Part;

/// A bad block as a line shows it: its place, what is wrong, and which bytes of the array it has.
pub struct Found<'a> {
    pub part: Part,
    /// The image as it was found.
    pub image: &'a [u8],
    pub bad: &'a Lost,
}

impl Display for Found<'_> {
    fn fmt(&self, f: &mut Formatter) -> fmt::Result {
        let Lost { block, reason } = *self.bad;
        let bytes = self.bad.array_range(self.part);
        let (first, last) = (bytes.start, bytes.end - 1);
        write!(f, "block {block}: ")?;
        match reason {
            Reason::Number => write!(f, "wrong number {}", number_in(self.image, block))?,
            Reason::Sums => f.write_str("wrong sums")?,
        }
        write!(f, ": bytes {first} to {last} (0x{first:06X} to 0x{last:06X})")
    }
}

/// The number that stands in a block.
fn number_in(image: &[u8], block: usize) -> u32 {
    let head = image[block * BLOCK_BYTES..].first_chunk().expect("a whole block");
    u32::from_le_bytes(*head)
}

/// How many blocks there are, and what is wrong with how many.
pub struct Totals<'a> {
    pub part: Part,
    pub bad: &'a [Lost],
    /// Whether the bad ones were made good, and their bytes are lost.
    pub salvaged: bool,
}

impl Display for Totals<'_> {
    fn fmt(&self, f: &mut Formatter) -> fmt::Result {
        let Totals { part, bad, salvaged } = *self;
        let count = |reason| bad.iter().filter(|bad| bad.reason == reason).count();
        let (blocks, good) = (part.blocks(), part.blocks() - bad.len());
        let (number, sums) = (count(Reason::Number), count(Reason::Sums));
        write!(f, "blocks {blocks}, good {good}, wrong number {number}, wrong sums {sums}")?;
        if salvaged {
            let lost: usize = bad.iter().map(|bad| bad.array_range(part).len()).sum();
            write!(f, ", bytes lost {lost}")?;
        }
        Ok(())
    }
}
