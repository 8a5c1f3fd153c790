//! Deliberate faults of the bits missing.

use crate::model::*;

/// Bits are counted in slots that the data did not reach, too: such a slot is all ones.
pub struct CountsWhereNoDataWent;

impl Model for CountsWhereNoDataWent {
    fn wanted(&self, address: usize, data: &[u8], slot: usize) -> Option<u8> {
        Paper.wanted(address, data, slot).or(Some(0xFF))
    }
}

/// Zeros over ones are counted, the bits that the program changes.
pub struct CountsZerosOverOnes;

impl Model for CountsZerosOverOnes {
    fn unmet(&self, wanted: u8, before: u8, bit: u32) -> bool {
        Paper.unmet(before, wanted, bit)
    }
}

/// Every byte of the data counts, those that a later one replaces too.
pub struct CountsReplacedBytes;

impl Model for CountsReplacedBytes {
    fn missing(&self, array: &[u8], address: usize, data: &[u8]) -> u32 {
        let page = address / 256 * 256;
        let byte = |k: usize| Paper.missing(array, page + (address + k) % 256, &data[k..=k]);
        (0..data.len()).map(byte).sum()
    }
}

/// Of several bytes for a slot the first counts.
pub struct CountsTheFirstByte;

impl Model for CountsTheFirstByte {
    fn wanted(&self, address: usize, data: &[u8], slot: usize) -> Option<u8> {
        Paper.wanted(address, &data[..data.len().min(256)], slot)
    }
}

/// An FF that is sent wants nothing.
pub struct SentBlankWantsNothing;

impl Model for SentBlankWantsNothing {
    fn wanted(&self, address: usize, data: &[u8], slot: usize) -> Option<u8> {
        Paper.wanted(address, data, slot).filter(|wanted| *wanted != 0xFF)
    }
}

/// The count runs on into the next page in place of wrapping.
pub struct CountsInTheNextPage;

impl Model for CountsInTheNextPage {
    fn missing(&self, array: &[u8], address: usize, data: &[u8]) -> u32 {
        let at = |k: usize| (address + k % 256) % array.len();
        let last = data.len().saturating_sub(256)..data.len();
        last.map(|k| Paper.missing(array, at(k), &data[k..=k])).sum()
    }
}

/// Bytes are counted, not bits.
pub struct CountsBytes;

impl Model for CountsBytes {
    fn unmet(&self, wanted: u8, before: u8, bit: u32) -> bool {
        bit == 0 && (0..8).any(|bit| Paper.unmet(wanted, before, bit))
    }
}

/// The zeros under an erase of this code are counted.
pub struct CountsErased(pub u8);

impl Model for CountsErased {
    fn told(&self, r: &Record, array: &[u8], sent: &[u8], number: u8) -> u32 {
        if number != 0 || sent[0] != self.0 {
            return Paper.told(r, array, sent, number);
        }
        let erased = match self.0 {
            SE => {
                let size = r.figures().sector_bytes;
                &array[address(r.figures(), sent) / size * size..][..size]
            }
            _ => array,
        };
        erased.iter().map(|byte| byte.count_zeros()).sum::<u32>().min(0xFFFF)
    }
}

/// A program that is ignored with this number is counted all the same.
pub struct CountsIgnored(pub u8);

impl Model for CountsIgnored {
    fn told(&self, r: &Record, array: &[u8], sent: &[u8], number: u8) -> u32 {
        let counted = number == self.0 && sent.len() > 4;
        Paper.told(r, array, sent, if counted { 0 } else { number })
    }
}
