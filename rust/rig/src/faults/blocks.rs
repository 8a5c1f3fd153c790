//! Deliberate faults of images: sums, heads, what a block covers, and when it is good.

use crate::image_model::*;
use crate::model::Paper;

/// The last block of the bench part, and how much of the array is in it.
const LAST: usize = 8;
const IN_LAST: usize = 64;

/// The sums are worked out otherwise.
pub struct Adds(pub fn(usize, &[u8]) -> [u16; 2]);

impl ImageModel for Adds {
    fn sums(&self, place: usize, data: &[u8]) -> [u16; 2] {
        self.0(place, data)
    }
}

/// Both sums where each byte is added so.
fn added(place: usize, data: &[u8], add: fn(u32, u32, u32) -> (u32, u32)) -> [u16; 2] {
    let start = (place as u32, 0);
    let sums = data.iter().fold(start, |(first, second), byte| add(first, second, (*byte).into()));
    [sums.0 as u16, sums.1 as u16]
}

/// The sums go over the number, too.
pub fn over_the_number(place: usize, data: &[u8]) -> [u16; 2] {
    Paper.sums(place, &[&(place as u32).to_le_bytes()[..], data].concat())
}

/// The sums go over the whole head, too, with zeros where the sums will stand.
pub fn over_the_head(place: usize, data: &[u8]) -> [u16; 2] {
    Paper.sums(place, &[&Paper.head(place as u32, [0, 0])[..], data].concat())
}

/// The second sum adds the first before each byte.
pub fn second_before_first(place: usize, data: &[u8]) -> [u16; 2] {
    added(place, data, |first, second, byte| ((first + byte) % WRAP, (second + first) % WRAP))
}

/// The second sum adds the bytes.
pub fn second_of_bytes(place: usize, data: &[u8]) -> [u16; 2] {
    added(place, data, |first, second, byte| ((first + byte) % WRAP, (second + byte) % WRAP))
}

/// The second sum starts where the first does.
pub fn second_from_the_number(place: usize, data: &[u8]) -> [u16; 2] {
    let [first, second] = Paper.sums(place, data);
    [first, second.wrapping_add(place as u16)]
}

/// Both sums wrap at 65,535.
pub fn one_less(place: usize, data: &[u8]) -> [u16; 2] {
    added(place, data, |first, second, byte| {
        let first = (first + byte) % (WRAP - 1);
        (first, (second + first) % (WRAP - 1))
    })
}

/// The first sum does not wrap, and stays at 65,535.
pub fn first_stays(place: usize, data: &[u8]) -> [u16; 2] {
    added(place, data, |first, second, byte| {
        let first = (first + byte).min(WRAP - 1);
        (first, (second + first) % WRAP)
    })
}

/// Both sums wrap at 256.
pub fn in_a_byte(place: usize, data: &[u8]) -> [u16; 2] {
    Paper.sums(place, data).map(|sum| sum % 256)
}

/// A byte above 127 is negative.
pub fn signed_bytes(place: usize, data: &[u8]) -> [u16; 2] {
    added(place, data, |first, second, byte| {
        let first = (first + WRAP + byte - 2 * (byte & 0x80)) % WRAP;
        (first, (second + first) % WRAP)
    })
}

/// The last byte is added first.
pub fn backwards(place: usize, data: &[u8]) -> [u16; 2] {
    Paper.sums(place, &data.iter().rev().copied().collect::<Vec<u8>>())
}

/// The last byte is not added.
pub fn without_the_last(place: usize, data: &[u8]) -> [u16; 2] {
    Paper.sums(place, &data[..DATA - 1])
}

/// The first byte is not added.
pub fn without_the_first(place: usize, data: &[u8]) -> [u16; 2] {
    Paper.sums(place, &data[1..])
}

/// What fills up the last block is not added.
pub fn without_the_filler(place: usize, data: &[u8]) -> [u16; 2] {
    Paper.sums(place, if place == LAST { &data[..IN_LAST] } else { data })
}

/// The first sum starts elsewhere.
pub struct Starts(pub fn(u32) -> u32);

impl ImageModel for Starts {
    fn start(&self, place: usize) -> u32 {
        self.0(place as u32)
    }
}

/// A head is written otherwise.
pub struct Heads(pub fn(u32, [u16; 2]) -> [u8; HEAD]);

impl ImageModel for Heads {
    fn head(&self, number: u32, sums: [u16; 2]) -> [u8; HEAD] {
        self.0(number, sums)
    }
}

/// The sums stand before the number.
pub fn sums_first(number: u32, sums: [u16; 2]) -> [u8; HEAD] {
    let mut head = Paper.head(number, sums);
    head.rotate_left(4);
    head
}

/// A block covers other bytes of the array.
pub struct Covers(pub fn(usize, &[u8]) -> Vec<u8>);

impl ImageModel for Covers {
    fn covered(&self, place: usize, array: &[u8]) -> Vec<u8> {
        self.0(place, array)
    }
}

/// The last block is filled up with zeros.
pub fn filled_with_zeros(place: usize, array: &[u8]) -> Vec<u8> {
    Paper.covered(place, &[array, &[0x00; DATA]].concat())
}

/// The last block is filled up with the beginning of the array.
pub fn filled_from_the_beginning(place: usize, array: &[u8]) -> Vec<u8> {
    Paper.covered(place, &[array, array].concat())
}

/// Of 512 bytes each block has the first 504.
pub fn every_512(place: usize, array: &[u8]) -> Vec<u8> {
    Paper.covered(0, array.get(place * BLOCK..).unwrap_or_default())
}

/// The head stands behind the bytes.
pub struct HeadBehind;

impl ImageModel for HeadBehind {
    fn block(&self, place: usize, data: &[u8]) -> Vec<u8> {
        let mut block = Paper.block(place, data);
        block.rotate_left(HEAD);
        block
    }
}

/// What filled up the last block stays as it was before the write.
pub struct FillerNotWritten;

impl ImageModel for FillerNotWritten {
    fn write(&self, part: u32, array: &[u8], image: &mut [u8]) -> u64 {
        let before = image.to_vec();
        let word = Paper.write(part, array, image);
        if word == 0 {
            let filler = array.len() + HEAD * self.blocks(array.len());
            image[filler..].copy_from_slice(&before[filler..]);
        }
        word
    }
}

/// Another judgement of a block in a place.
pub struct Judges(pub fn(usize, &[u8]) -> Option<Reason>);

impl ImageModel for Judges {
    fn reason(&self, place: usize, block: &[u8]) -> Option<Reason> {
        self.0(place, block)
    }
}

/// Sums alone count.
pub fn by_sums(place: usize, block: &[u8]) -> Option<Reason> {
    Paper.sums_wrong(place, block).then_some(Reason::Sums)
}

/// The number alone counts.
pub fn by_number(place: usize, block: &[u8]) -> Option<Reason> {
    Paper.number_wrong(place, block).then_some(Reason::Number)
}

/// Sums are looked at before the number.
pub fn sums_before_number(place: usize, block: &[u8]) -> Option<Reason> {
    by_sums(place, block).or(by_number(place, block))
}

/// The paper's judgement, with a number of which these bits alone count.
fn number_cut(place: usize, block: &[u8], bits: u32) -> Option<Reason> {
    let wrong = number(block) & bits != place as u32 & bits;
    wrong.then_some(Reason::Number).or(by_sums(place, block))
}

pub fn number_of_a_byte(place: usize, block: &[u8]) -> Option<Reason> {
    number_cut(place, block, 0xFF)
}

pub fn number_of_two_bytes(place: usize, block: &[u8]) -> Option<Reason> {
    number_cut(place, block, 0xFFFF)
}

pub fn number_without_its_highest_bit(place: usize, block: &[u8]) -> Option<Reason> {
    number_cut(place, block, u32::MAX >> 1)
}

/// The paper's judgement, with sums of which these bits alone count.
fn sums_cut(place: usize, block: &[u8], bits: [u16; 2]) -> Option<Reason> {
    let (stand, right) = (sums(block), Paper.sums(place, &block[HEAD..]));
    let wrong = (0..2).any(|which| stand[which] & bits[which] != right[which] & bits[which]);
    by_number(place, block).or(wrong.then_some(Reason::Sums))
}

pub fn first_sum_alone(place: usize, block: &[u8]) -> Option<Reason> {
    sums_cut(place, block, [u16::MAX, 0])
}

pub fn second_sum_alone(place: usize, block: &[u8]) -> Option<Reason> {
    sums_cut(place, block, [0, u16::MAX])
}

pub fn first_sum_of_a_byte(place: usize, block: &[u8]) -> Option<Reason> {
    sums_cut(place, block, [0xFF, u16::MAX])
}

pub fn second_sum_of_a_byte(place: usize, block: &[u8]) -> Option<Reason> {
    sums_cut(place, block, [u16::MAX, 0xFF])
}

pub fn high_bytes_of_sums(place: usize, block: &[u8]) -> Option<Reason> {
    sums_cut(place, block, [0xFF00, 0xFF00])
}

/// One right sum is enough.
pub fn either_sum(place: usize, block: &[u8]) -> Option<Reason> {
    first_sum_alone(place, block).and(second_sum_alone(place, block)).or(by_number(place, block))
}

/// Sums may be exchanged.
pub fn sums_either_way(place: usize, block: &[u8]) -> Option<Reason> {
    let [first, second] = sums(block);
    let exchanged = [second, first] == Paper.sums(place, &block[HEAD..]);
    Paper.reason(place, block).filter(|why| *why == Reason::Number || !exchanged)
}

/// Sums that start at 0 will do, too.
pub fn sums_from_zero(place: usize, block: &[u8]) -> Option<Reason> {
    by_number(place, block).or(by_sums(place, block).and(by_sums(0, block)))
}

/// A block that would be right in the place of its number is good.
pub fn right_elsewhere(place: usize, block: &[u8]) -> Option<Reason> {
    Paper.reason(place, block).and(Paper.reason(number(block) as usize % (1 << 24), block))
}

/// A block of one byte throughout is good.
fn blank_is_good(place: usize, block: &[u8], byte: u8) -> Option<Reason> {
    Paper.reason(place, block).filter(|_| block.iter().any(|one| *one != byte))
}

pub fn erased_is_good(place: usize, block: &[u8]) -> Option<Reason> {
    blank_is_good(place, block, 0xFF)
}

pub fn zeros_are_good(place: usize, block: &[u8]) -> Option<Reason> {
    blank_is_good(place, block, 0x00)
}

/// A block of zeros is bad in place 0, too.
pub fn zeros_are_bad(place: usize, block: &[u8]) -> Option<Reason> {
    let zeros = block.iter().all(|byte| *byte == 0x00);
    Paper.reason(place, block).or(zeros.then_some(Reason::Sums))
}

/// The last block is good only if it is filled up with FF.
pub fn filler_counts(place: usize, block: &[u8]) -> Option<Reason> {
    let other = block[HEAD + IN_LAST..].iter().any(|byte| *byte != 0xFF);
    Paper.reason(place, block).or((place == LAST && other).then_some(Reason::Sums))
}

/// The sums of the last block are those of its bytes with FF behind them, whatever fills it up.
pub fn filler_as_written(place: usize, block: &[u8]) -> Option<Reason> {
    let mut block = block.to_vec();
    if place == LAST {
        block[HEAD + IN_LAST..].fill(0xFF);
    }
    Paper.reason(place, &block)
}

/// The last block is always good.
pub fn last_is_good(place: usize, block: &[u8]) -> Option<Reason> {
    Paper.reason(place, block).filter(|_| place != LAST)
}

/// Block 0 is always good.
pub fn first_is_good(place: usize, block: &[u8]) -> Option<Reason> {
    Paper.reason(place, block).filter(|_| place != 0)
}
