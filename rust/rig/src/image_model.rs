//! A model of images: an array as blocks of 512 bytes with number and sums, written, read and salvaged, plain and
//! slow.
//!
//! As in the model of the chip each rule is a method.

use crate::model::{Paper, PARTS};

/// The bytes of a block, of its head, and of the array in it.
pub const BLOCK: usize = 512;
pub const HEAD: usize = 8;
pub const DATA: usize = 504;

/// The bytes of a place in salvage's list.
pub const LIST_PLACE: usize = 8;

/// Where both sums wrap.
pub const WRAP: u32 = 65_536;

/// What is wrong with a block.
#[derive(Clone, Copy, Debug, PartialEq, Eq)]
pub enum Reason {
    Number,
    Sums,
}

/// A bad block: its place, and what is wrong with it.
pub type Lost = (usize, Reason);

/// The three calls.
#[derive(Clone, Copy, Debug, PartialEq, Eq)]
pub enum Call {
    Write,
    Read,
    Salvage,
}

/// What a call is lent: an image, and an array or, for salvage, a list.
pub struct Lent<'a> {
    pub call: Call,
    pub part: u32,
    pub image: &'a [u8],
    pub other: &'a [u8],
}

/// The rules of an image.
pub trait ImageModel: Sync {
    /// Array to image.
    fn write(&self, part: u32, array: &[u8], image: &mut [u8]) -> u64 {
        let word = self.refusal(&Lent { call: Call::Write, part, image, other: array });
        if word == 0 {
            put(image, &self.image(array));
        }
        word
    }

    /// Image to array.
    fn read(&self, part: u32, image: &[u8], array: &mut [u8]) -> u64 {
        let word = self.refusal(&Lent { call: Call::Read, part, image, other: array });
        if word == 0 {
            put(array, &self.array(image));
        }
        word
    }

    /// Bad blocks of an image become FF, and are listed.
    fn salvage(&self, part: u32, image: &mut [u8], list: &mut [u8]) -> u64 {
        let word = self.refusal(&Lent { call: Call::Salvage, part, image, other: list });
        if word != 0 {
            return word;
        }
        let lost = self.lost(image);
        self.salvage_all(image, &lost);
        self.list(list, &lost);
        self.told(0, lost.len())
    }

    /// Bad blocks become what they become; no other block changes.
    fn salvage_all(&self, image: &mut [u8], lost: &[Lost]) {
        for (place, reason) in lost {
            let block = &mut image[place * BLOCK..][..BLOCK];
            let salvaged = self.salvaged(*place, block, *reason);
            put(block, &salvaged);
        }
    }

    /// The 64 bits of an answer: its number, and a block's place or a count of blocks.
    fn told(&self, number: u8, blocks: usize) -> u64 {
        u64::from(number) | (blocks as u64) << 16
    }

    /// The answer that refuses the call, the first that applies; 0 where it is carried out.
    fn refusal(&self, lent: &Lent) -> u64 {
        let number = self.order(lent.call).iter().find(|number| self.applies(**number, lent));
        match number {
            Some(33) => self.told(33, self.named(lent.image)),
            Some(number) => self.told(*number, 0),
            None => 0,
        }
    }

    /// The numbers that refuse each call, in their order.
    fn order(&self, call: Call) -> &'static [u8] {
        match call {
            Call::Write => &[31, 32, 2],
            Call::Read => &[31, 32, 2, 33],
            Call::Salvage => &[31, 32, 34],
        }
    }

    /// When each applies. An unknown part has no length that would be right.
    fn applies(&self, number: u8, lent: &Lent) -> bool {
        let Some(bytes) = self.bytes(lent.part) else { return true };
        match number {
            31 => false,
            32 => !self.image_fits(lent.image.len(), self.blocks(bytes)),
            2 => !self.array_fits(lent.other.len(), bytes),
            34 => !self.list_fits(lent.other.len(), self.blocks(bytes), lent.image),
            _ => !self.lost(lent.image).is_empty(),
        }
    }

    /// The size of the part with this number, of all its 32 bits.
    fn bytes(&self, part: u32) -> Option<usize> {
        PARTS.get(part as usize).map(|part| part.bytes)
    }

    /// The blocks of an array: its bytes divided by 504, rounded up.
    fn blocks(&self, bytes: usize) -> usize {
        bytes.div_ceil(DATA)
    }

    /// Whether an image of so many bytes has so many blocks.
    fn image_fits(&self, length: usize, blocks: usize) -> bool {
        length == blocks * BLOCK
    }

    /// Whether an array of so many bytes is the part's.
    fn array_fits(&self, length: usize, bytes: usize) -> bool {
        length == bytes
    }

    /// Whether a list of so many bytes has as many whole places as there are blocks, however few of them are bad.
    fn list_fits(&self, length: usize, blocks: usize, _image: &[u8]) -> bool {
        length / LIST_PLACE >= blocks
    }

    /// The image of an array: its blocks in order.
    fn image(&self, array: &[u8]) -> Vec<u8> {
        let mut image = Vec::new();
        for place in 0..self.blocks(array.len()) {
            image.extend(self.block(place, &self.covered(place, array)));
        }
        image
    }

    /// The 504 bytes of the array that a block covers; the last one is filled up with FF.
    fn covered(&self, place: usize, array: &[u8]) -> Vec<u8> {
        let mut data: Vec<u8> = array.iter().skip(place * DATA).take(DATA).copied().collect();
        data.resize(DATA, 0xFF);
        data
    }

    /// The right block with these 504 bytes in this place.
    fn block(&self, place: usize, data: &[u8]) -> Vec<u8> {
        let mut block = self.head(place as u32, self.sums(place, data)).to_vec();
        block.extend(data);
        block
    }

    /// A head: the number in four bytes, then the sums in two bytes each, all little-endian.
    fn head(&self, number: u32, [first, second]: [u16; 2]) -> [u8; HEAD] {
        let [a, b, c, d] = number.to_le_bytes();
        let ([e, f], [g, h]) = (first.to_le_bytes(), second.to_le_bytes());
        [a, b, c, d, e, f, g, h]
    }

    /// Both sums of the 504 bytes: the first adds each byte, the second adds the first after each.
    fn sums(&self, place: usize, data: &[u8]) -> [u16; 2] {
        let (mut first, mut second) = (self.start(place), 0);
        for byte in data {
            first = (first + u32::from(*byte)) % WRAP;
            second = (second + first) % WRAP;
        }
        [first as u16, second as u16]
    }

    /// Where the first sum starts: at the block number modulo 65,536.
    fn start(&self, place: usize) -> u32 {
        place as u32 % WRAP
    }

    /// What is wrong with the block in this place, if anything: number before sums.
    fn reason(&self, place: usize, block: &[u8]) -> Option<Reason> {
        if self.number_wrong(place, block) {
            return Some(Reason::Number);
        }
        self.sums_wrong(place, block).then_some(Reason::Sums)
    }

    /// Whether the number is not the block's place.
    fn number_wrong(&self, place: usize, block: &[u8]) -> bool {
        number(block) as usize != place
    }

    /// Whether one of the sums is not that of the 504 bytes as they stand.
    fn sums_wrong(&self, place: usize, block: &[u8]) -> bool {
        sums(block) != self.sums(place, &block[HEAD..])
    }

    /// The bad blocks of an image, in order.
    fn lost(&self, image: &[u8]) -> Vec<Lost> {
        let blocks = image.chunks_exact(BLOCK).enumerate();
        blocks.filter_map(|(place, block)| Some((place, self.reason(place, block)?))).collect()
    }

    /// The place of the first bad block, of which there is one.
    fn named(&self, image: &[u8]) -> usize {
        self.lost(image)[0].0
    }

    /// What stands behind the heads, in order; what filled up the last block is dropped, as the array ends before it.
    fn array(&self, image: &[u8]) -> Vec<u8> {
        let mut array = Vec::new();
        image.chunks_exact(BLOCK).for_each(|block| array.extend(&block[HEAD..]));
        array
    }

    /// What a bad block becomes: 504 bytes FF behind a right head.
    fn salvaged(&self, place: usize, _block: &[u8], _reason: Reason) -> Vec<u8> {
        self.block(place, &[0xFF; DATA])
    }

    /// Lists the bad blocks from the first place on.
    fn list(&self, list: &mut [u8], lost: &[Lost]) {
        for (entry, (place, reason)) in list.chunks_exact_mut(LIST_PLACE).zip(lost) {
            put(entry, &self.entry(*place as u32, *reason));
        }
    }

    /// A place of the list: block number and reason, four bytes each, little-endian.
    fn entry(&self, number: u32, reason: Reason) -> [u8; LIST_PLACE] {
        let [a, b, c, d] = number.to_le_bytes();
        let [e, f, g, h] = self.reason_number(reason).to_le_bytes();
        [a, b, c, d, e, f, g, h]
    }

    /// The number of a reason.
    fn reason_number(&self, reason: Reason) -> u32 {
        match reason {
            Reason::Number => 1,
            Reason::Sums => 2,
        }
    }
}

impl ImageModel for Paper {}

/// Writes bytes from the beginning of others on, as far as both go.
pub fn put(to: &mut [u8], from: &[u8]) {
    to.iter_mut().zip(from).for_each(|(to, from)| *to = *from);
}

/// The number that stands in a block.
pub fn number(block: &[u8]) -> u32 {
    u32::from_le_bytes([block[0], block[1], block[2], block[3]])
}

/// The sums that stand in a block.
pub fn sums(block: &[u8]) -> [u16; 2] {
    [u16::from_le_bytes([block[4], block[5]]), u16::from_le_bytes([block[6], block[7]])]
}
