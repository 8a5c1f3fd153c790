//! Chip images: a part's array with numbers and sums in it, for a disk, so that damage is seen and the rest is saved.
//!
//! An image is blocks of 512 bytes: the block's number from 0 on (4 bytes), two sums (2 bytes each), all little-endian,
//! and 504 bytes of the array; the last block is filled up with FF. The first sum starts at the number modulo 65,536 and
//! adds each of the 504 bytes, the second starts at 0 and adds the first after each byte; both are modulo 65,536. A block
//! is good if its number is its place and both sums are right, whatever the last one is filled up with.
//!
//! ```
//! use m25p::image::{self, Lost, Reason};
//! use m25p::{Chip, Durations, Part};
//!
//! let part = Part::M25p40;
//! let mut chip = Chip::deliver(part, Durations::default())?;
//! chip.array_mut()[1_000] = 0x5A;
//! let mut image = image::write(part, chip.array())?;
//! assert_eq!(image.len(), 1_041 * 512);
//! assert_eq!(image::read(part, &image)?, chip.array());
//!
//! // A byte on the disk has changed: the image can't be read, and the block is named.
//! image[3 * 512 + 8] ^= 1;
//! let unread = image::read(part, &image).unwrap_err();
//! assert_eq!(unread.block, Some(3));
//! assert_eq!(unread.to_string(), "block 3 of the image is bad: its number or its sums are wrong");
//!
//! // Salvage makes the block a good one of FF, and says which bytes of the array are lost.
//! let lost = image::salvage(part, &mut image)?;
//! assert_eq!(lost, [Lost { block: 3, reason: Reason::Sums }]);
//! assert_eq!(lost[0].array_range(part), 1_512..2_016);
//! assert_eq!(image::read(part, &image)?, chip.array());
//! assert_eq!(image::salvage(part, &mut image)?, []);
//! # Ok::<(), Box<dyn std::error::Error>>(())
//! ```
//!
//! The sums see most damage, not all. A change of one or two bytes of a block is always seen; but a block of 512 bytes 00
//! is good in place 0, and there are changes of three bytes that keep both sums. No part stands in an image: parts of one
//! size read each other's.

use std::error::Error;
use std::fmt;
use std::ops::Range;

use crate::calls;
use crate::{Answer, Part};

/// The length of a block.
pub const BLOCK_BYTES: usize = 512;

/// How many bytes of the array a block has.
pub const ARRAY_BYTES: usize = 504;

/// The length of a place in the list of a salvage.
pub const PLACE_BYTES: usize = 8;

/// The image of an array. The one refusal is [`Answer::ArrayLength`].
pub fn write(part: Part, array: &[u8]) -> Result<Vec<u8>, Answer> {
    let mut image = vec![0; part.image_bytes()];
    let reply = calls::image_write(part.number(), array, &mut image);
    reply.answer().executed().map(|()| image)
}

/// The array that an image was written of. Refused with [`Answer::ImageLength`] or [`Answer::BadBlock`].
pub fn read(part: Part, image: &[u8]) -> Result<Vec<u8>, Unread> {
    let mut array = vec![0; part.bytes()];
    let reply = calls::image_read(part.number(), image, &mut array);
    match reply.answer() {
        Answer::Executed => Ok(array),
        Answer::BadBlock => Err(Unread { answer: Answer::BadBlock, block: Some(reply.blocks()) }),
        answer => Err(Unread { answer, block: None }),
    }
}

/// Makes every bad block a good one of FF, and leaves the good ones as they are: the blocks that were bad, in order. A
/// second time there are none. The one refusal is [`Answer::ImageLength`].
pub fn salvage(part: Part, image: &mut [u8]) -> Result<Vec<Lost>, Answer> {
    let mut list = vec![0; part.blocks() * PLACE_BYTES];
    let reply = calls::image_salvage(part.number(), image, &mut list);
    reply.answer().executed()?;
    Ok(list.chunks_exact(PLACE_BYTES).take(reply.blocks()).map(Lost::listed).collect())
}

/// Why an image can't be read.
#[derive(Clone, Copy, Debug, PartialEq, Eq, Hash)]
pub struct Unread {
    /// The answer of the call.
    pub answer: Answer,
    /// With [`Answer::BadBlock`] the place of the first bad block, else nothing.
    pub block: Option<usize>,
}

impl fmt::Display for Unread {
    fn fmt(&self, f: &mut fmt::Formatter) -> fmt::Result {
        match self.block {
            Some(block) => {
                write!(f, "block {block} of the image is bad: its number or its sums are wrong")
            }
            None => self.answer.fmt(f),
        }
    }
}

impl Error for Unread {}

/// A block that was bad.
#[derive(Clone, Copy, Debug, PartialEq, Eq, Hash)]
pub struct Lost {
    /// Its place in the image.
    pub block: usize,
    /// What was wrong with it.
    pub reason: Reason,
}

/// What is wrong with a block; where both are, it is the number.
#[derive(Clone, Copy, Debug, PartialEq, Eq, Hash)]
pub enum Reason {
    /// Its number is not its place.
    Number,
    /// Its number is its place, but a sum is wrong.
    Sums,
}

impl Lost {
    /// The block that this place of a list names.
    fn listed(place: &[u8]) -> Lost {
        let number = |from: usize| u32::from_le_bytes(place[from..from + 4].try_into().unwrap());
        let reason = match number(4) {
            1 => Reason::Number,
            2 => Reason::Sums,
            other => panic!("the reason {other} in a list: this is another library"),
        };
        Lost { block: number(0) as usize, reason }
    }

    /// The bytes of the part's array that are in the block.
    pub fn array_range(&self, part: Part) -> Range<usize> {
        let start = self.block * ARRAY_BYTES;
        start.min(part.bytes())..(start + ARRAY_BYTES).min(part.bytes())
    }
}

impl fmt::Display for Reason {
    fn fmt(&self, f: &mut fmt::Formatter) -> fmt::Result {
        f.pad(match self {
            Reason::Number => "its number is wrong",
            Reason::Sums => "its sums are wrong",
        })
    }
}
