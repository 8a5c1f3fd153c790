//! Random calls for images: arrays of all kinds, images that are right or damaged in known ways, part numbers and
//! lengths that are right or nearly so.

mod damage;

pub use damage::{foreseen, Damaged, Done, DAMAGES};

use crate::compare::images::{Asked, Lent};
use crate::compare::SPARE;
use crate::image_model::*;
use crate::model::{Paper, PARTS};
use crate::rng::Rng;

pub struct ImageGenerator {
    rng: Rng,
    part: usize,
}

/// The parts whose arrays and images other parts are lent, too.
const LENT: [usize; 3] = [0, 1, 2];

impl ImageGenerator {
    pub fn new(part: usize, seed: u64) -> ImageGenerator {
        ImageGenerator { rng: Rng::new(seed), part }
    }

    fn bytes(&self) -> usize {
        PARTS[self.part].bytes
    }

    fn blocks(&self) -> usize {
        Paper.blocks(self.bytes())
    }

    /// A call; one in three is odd: its part number and its lengths may be wrong, all at once perhaps.
    pub fn asked(&mut self) -> Asked {
        let calls = [Call::Write, Call::Read, Call::Read, Call::Salvage, Call::Salvage];
        let (call, odd) = (self.rng.pick(&calls), self.rng.one_in(3));
        let mut wrong = || odd && self.rng.one_in(3);
        let [wrong_part, wrong_image, wrong_other] = [wrong(), wrong(), wrong()];
        let part = if wrong_part { self.odd_part() } else { self.part as u32 };
        let (image, other, done) = match call {
            Call::Write => (self.overwritten(), self.array(), Done::new()),
            _ => {
                let Damaged { image, done, .. } = self.damaged();
                (image, vec![], done)
            }
        };
        let image_len = if wrong_image { self.odd_image() } else { image.len() };
        let other_len = match call {
            Call::Salvage if wrong_other => self.short_list(foreseen(&done).len()),
            Call::Salvage => self.list_len(),
            _ if wrong_other => self.odd_array(),
            _ => self.bytes(),
        };
        let done = (image_len == image.len()).then_some(done);
        let (image, other) = (self.lent(image, image_len), self.lent(other, other_len));
        Asked { call, part, image, other, done }
    }

    /// A buffer of this length with these bytes, as far as they go, and random ones around them.
    fn lent(&mut self, bytes: Vec<u8>, length: usize) -> Lent {
        let front = self.rng.below(SPARE);
        let mut around = self.rng.bytes(front + length + SPARE);
        put(&mut around[front..], &bytes);
        Lent { bytes: around, range: front..front + length }
    }

    /// What a writer finds where the image is to go.
    fn overwritten(&mut self) -> Vec<u8> {
        self.rng.bytes(self.blocks() * BLOCK)
    }

    /// An array: random, of one byte throughout, or mostly so.
    pub fn array(&mut self) -> Vec<u8> {
        let bytes = self.bytes();
        let byte = self.rng.pick(&[0xFF, 0xFF, 0x00, 0x01, 0x80]);
        let some = match self.rng.below(4) {
            0 => 0,
            1 => bytes / 100,
            _ => return self.rng.bytes(bytes),
        };
        let mut array = vec![byte; bytes];
        for _ in 0..some {
            array[self.rng.below(bytes)] = self.rng.byte();
        }
        array
    }

    /// An image with no bad block, one, a few, many, or all, by one damage or by any.
    pub fn damaged(&mut self) -> Damaged {
        let array = self.array();
        let mut damaged =
            Damaged { image: Paper.image(&array), bytes: array.len(), done: Done::new() };
        let (blocks, one) = (damaged.blocks(), self.which());
        let from = self.rng.pick(&[0, 0, 256, 32_768]);
        let from = if from < blocks { from } else { 0 };
        match self.rng.below(10) {
            0 | 1 => {}
            2..=4 => self.damage(&mut damaged, from),
            5..=7 => (0..2 + self.rng.below(4)).for_each(|_| self.damage(&mut damaged, from)),
            8 => (0..self.rng.below(blocks)).for_each(|_| self.damage(&mut damaged, from)),
            _ => {
                let all = self.rng.one_in(2).then_some(one);
                for place in 0..blocks {
                    let which = all.unwrap_or_else(|| self.which());
                    damaged.damage(place, which, &mut self.rng);
                }
            }
        }
        damaged
    }

    /// Something that can be done to a block.
    fn which(&mut self) -> usize {
        self.rng.below(DAMAGES.len())
    }

    /// Damages a block from this one on: the first, the last, one before it, or any; of the last one its filler
    /// often.
    fn damage(&mut self, damaged: &mut Damaged, from: usize) {
        let last = damaged.blocks() - 1;
        let (any, high) = (from + self.rng.below(last + 1 - from), last - self.rng.below(5));
        let place = self.rng.pick(&[from, last, last, high, any, any]);
        let which = match place == last && self.rng.one_in(3) {
            true => DAMAGES.len() - 1 - self.rng.below(3),
            false => self.which(),
        };
        damaged.damage(place, which, &mut self.rng);
    }

    /// Another part, or a number that looks like one's own when it is cut down.
    fn odd_part(&mut self) -> u32 {
        let (own, random) = (self.part as u32, self.rng.draw() as u32);
        let other = self.rng.below(PARTS.len()) as u32;
        let wide = self.rng.pick(&[256, 512, 0x1_0000, 0x100_0000, 1 << 31, 0xFFFF_FF00]) + own;
        let byte = self.rng.pick(&[7, 8, 255, u32::MAX, u32::MAX - 6 + own, 8 + own, 128 + own]);
        self.rng.pick(&[other, other, wide, wide, byte, 7, random])
    }

    /// Lengths of an image that are wrong, or another part's.
    fn odd_image(&mut self) -> usize {
        let right = self.blocks() * BLOCK;
        let other = Paper.blocks(PARTS[self.rng.pick(&LENT)].bytes) * BLOCK;
        let near = [right - 1, right + 1, right - BLOCK, right + BLOCK, right + BLOCK - 1];
        let near = self.rng.pick(&near);
        let any = self.rng.below(right);
        self.rng.pick(&[near, near, near, other, self.bytes(), 0, any, self.blocks()])
    }

    /// Lengths of an array that are wrong, or another part's; one is that of all blocks.
    fn odd_array(&mut self) -> usize {
        let (right, blocks) = (self.bytes(), self.blocks());
        let other = PARTS[self.rng.pick(&LENT)].bytes;
        let near = self.rng.pick(&[right - 1, right + 1, right - DATA, right + DATA]);
        let any = self.rng.below(right);
        self.rng.pick(&[near, near, near, other, blocks * DATA, blocks * BLOCK, 0, any])
    }

    /// Lengths of a list with a place for every block.
    fn list_len(&mut self) -> usize {
        let behind = self.rng.below(100);
        let more = self.rng.pick(&[0, 0, 1, LIST_PLACE - 1, LIST_PLACE, behind]);
        self.blocks() * LIST_PLACE + more
    }

    /// Lengths of a list that are wrong, with so many bad blocks.
    fn short_list(&mut self, bad: usize) -> usize {
        let right = self.blocks() * LIST_PLACE;
        let any = self.rng.below(right);
        let few = [right - LIST_PLACE, right - 1, bad * LIST_PLACE, self.blocks(), 0, any];
        self.rng.pick(&few)
    }
}
