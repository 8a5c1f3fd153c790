//! The comparison of images: one call is made to libm25p.a and to the model, and every lent byte is compared, those
//! that may only be read and those around what is lent, too.

mod tally;

pub use tally::Images;

use std::ops::Range;

use m25p::calls;

use super::same;
use crate::image_generate::{foreseen, Done, ImageGenerator, DAMAGES};
use crate::image_model::{Call, ImageModel};
use crate::rng::Rng;
use tally::Met;

/// A buffer that is lent: bytes before the call, and which of them are lent. There are others around them.
#[derive(Clone)]
pub struct Lent {
    pub bytes: Vec<u8>,
    pub range: Range<usize>,
}

impl Lent {
    pub fn named(&self) -> &[u8] {
        &self.bytes[self.range.clone()]
    }

    fn lend(&mut self) -> &mut [u8] {
        &mut self.bytes[self.range.clone()]
    }

    pub fn length(&self) -> usize {
        self.range.len()
    }
}

/// A call with what it is lent: an image, and an array or, for salvage, a list; and what was done to the image since
/// it was right, where that is known.
#[derive(Clone)]
pub struct Asked {
    pub call: Call,
    pub part: u32,
    pub image: Lent,
    pub other: Lent,
    pub done: Option<Done>,
}

impl Asked {
    /// Makes the call of the library, and leaves in the buffers what it leaves: the 64 bits.
    pub fn ask(&mut self) -> u64 {
        let (image, other) = (self.image.lend(), self.other.lend());
        let reply = match self.call {
            Call::Write => calls::image_write(self.part, other, image),
            Call::Read => calls::image_read(self.part, image, other),
            Call::Salvage => calls::image_salvage(self.part, image, other),
        };
        reply.bits()
    }

    /// The same of the model with these rules.
    pub fn ask_model(&mut self, rules: &dyn ImageModel) -> u64 {
        let (image, other) = (self.image.lend(), self.other.lend());
        match self.call {
            Call::Write => rules.write(self.part, other, image),
            Call::Read => rules.read(self.part, image, other),
            Call::Salvage => rules.salvage(self.part, image, other),
        }
    }

    /// The call in words.
    fn describe(&self) -> String {
        let done = self.done.iter().flatten().map(|(place, which)| (place, DAMAGES[*which].name));
        let done: Vec<_> = done.take(20).collect();
        let Asked { call, part, image, other, .. } = self;
        let (image, other) = (&image.range, &other.range);
        format!("{call:?} part {part}, image {image:?}, other {other:?}, at first {done:?}")
    }
}

/// Makes the call on both sides: the 64 bits and what the library left, or the first difference in words.
pub fn step(
    asked: &Asked,
    rules: &dyn ImageModel,
    tally: &mut Images,
) -> Result<(u64, Asked), String> {
    let told = |difference| format!("{difference}\nat {}", asked.describe());
    let (mut real, mut modelled) = (asked.clone(), asked.clone());
    let (word, expected) = (real.ask(), modelled.ask_model(rules));
    if word != expected {
        return Err(told(format!("answer {word:#x}, expected {expected:#x}")));
    }
    same("image", 0, &real.image.bytes, &modelled.image.bytes).map_err(told)?;
    same("other", 0, &real.other.bytes, &modelled.other.bytes).map_err(told)?;
    let met = Met::new(asked, word);
    let foreseen = asked.done.as_ref().filter(|_| met.whole()).map(foreseen);
    if foreseen.is_some_and(|foreseen| foreseen != met.lost) {
        return Err(told("other blocks are bad than were damaged".to_string()));
    }
    tally.count(&met);
    Ok((word, real))
}

/// An episode: that many calls for the part.
pub fn episode(
    part: usize,
    calls: u64,
    seed: u64,
    rules: &dyn ImageModel,
    tally: &mut Images,
) -> Result<(), String> {
    let mut generator = ImageGenerator::new(part, Rng::new(seed).draw());
    for _ in 0..calls {
        let told = |difference| format!("part {part}, episode seed {seed}: {difference}");
        step(&generator.asked(), rules, tally).map_err(told)?;
    }
    Ok(())
}
