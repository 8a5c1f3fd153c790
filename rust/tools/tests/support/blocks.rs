//! Images in blocks by the rule, without the library.

use std::ops::Range;

use m25p::Part;
use tools::rng::Rng;

/// Random contents of a part.
pub fn array(part: Part, seed: u64) -> Vec<u8> {
    Rng::new(seed).bytes(part.bytes())
}

/// The image of an array: blocks of 504 of its bytes, the last one filled up with FF.
pub fn image_of(array: &[u8]) -> Vec<u8> {
    filled_up(array, 0xFF)
}

/// The same with another byte that fills up the last block.
pub fn filled_up(array: &[u8], filler: u8) -> Vec<u8> {
    let blocks = array.chunks(504).zip(0..).map(|(bytes, place)| {
        let mut bytes = bytes.to_vec();
        bytes.resize(504, filler);
        block(place, place, &bytes)
    });
    blocks.collect::<Vec<_>>().concat()
}

/// A block with this number, and with the sums of this place.
pub fn block(number: u32, place: u32, bytes: &[u8]) -> Vec<u8> {
    let (mut first, mut second) = (place as u16, 0_u16);
    for byte in bytes {
        first = first.wrapping_add(u16::from(*byte));
        second = second.wrapping_add(first);
    }
    let sums = [first.to_le_bytes(), second.to_le_bytes()].concat();
    [&number.to_le_bytes()[..], &sums, bytes].concat()
}

/// The bytes of a block in an image.
pub fn at(block: usize) -> Range<usize> {
    512 * block..512 * (block + 1)
}
