//! What is done to a block of an image, and what the block is then: known from what is done, without working out sums
//! again.

use std::collections::BTreeMap;

use crate::image_model::*;
use crate::model::Paper;
use crate::rng::Rng;

/// Something that can be done to a right block.
pub struct Damage {
    pub name: &'static str,
    /// What is wrong with a block in this place then.
    pub leaves: fn(usize) -> Option<Reason>,
    /// Does it, unless this block has nothing that it could be done to.
    done: fn(&mut Spot) -> bool,
}

/// What was done, by place, as an index of `DAMAGES`; all other blocks are right.
pub type Done = BTreeMap<usize, usize>;

/// The bad blocks in order, each with the reason, as what was done lets one expect.
pub fn foreseen(done: &Done) -> Vec<Lost> {
    let bad = done.iter().map(|(place, which)| (*place, (DAMAGES[*which].leaves)(*place)));
    bad.filter_map(|(place, reason)| Some((place, reason?))).collect()
}

/// The image of an array of so many bytes, and what was done to it since it was right.
pub struct Damaged {
    pub image: Vec<u8>,
    pub bytes: usize,
    pub done: Done,
}

impl Damaged {
    pub fn blocks(&self) -> usize {
        self.image.len() / BLOCK
    }

    /// Does something to the block in this place, unless something was done to it before.
    pub fn damage(&mut self, place: usize, which: usize, rng: &mut Rng) {
        let with = rng.below(self.blocks());
        let with = Some(with).filter(|with| *with != place && !self.done.contains_key(with));
        let mut spot = Spot { rng, image: &mut self.image, bytes: self.bytes, place, with };
        if self.done.contains_key(&place) || !(DAMAGES[which].done)(&mut spot) {
            return;
        }
        self.done.insert(place, which);
        if DAMAGES[which].name == EXCHANGED {
            self.done.extend(with.map(|with| (with, which)));
        }
    }
}

/// A block of an image, and another one that is right, if one was found.
struct Spot<'a> {
    rng: &'a mut Rng,
    image: &'a mut [u8],
    bytes: usize,
    place: usize,
    with: Option<usize>,
}

impl Spot<'_> {
    fn block(&mut self) -> &mut [u8] {
        &mut self.image[self.place * BLOCK..][..BLOCK]
    }

    fn data(&mut self) -> &mut [u8] {
        &mut self.block()[HEAD..]
    }

    /// Another number than the block's own.
    fn number(&mut self, number: u32) -> bool {
        put(self.block(), &number.to_le_bytes());
        number as usize != self.place
    }

    fn more(&mut self, more: u32) -> bool {
        self.number((self.place as u32).wrapping_add(more))
    }

    /// Other sums than the block's own.
    fn sums(&mut self, change: impl FnOnce([u16; 2]) -> [u16; 2]) -> bool {
        let own = sums(self.block());
        let [first, second] = change(own);
        put(&mut self.block()[4..6], &first.to_le_bytes());
        put(&mut self.block()[6..8], &second.to_le_bytes());
        own != [first, second]
    }

    /// More of each sum, modulo 65,536.
    fn more_of(&mut self, first: u16, second: u16) -> bool {
        self.sums(|own| [own[0].wrapping_add(first), own[1].wrapping_add(second)])
    }

    /// A number of 16 bits that is not 0.
    fn some(&mut self) -> u16 {
        1 + self.rng.below(65_535) as u16
    }

    /// One more or one less, times so many.
    fn one(&mut self, times: u16) -> u16 {
        self.rng.pick(&[times, times.wrapping_neg()])
    }

    /// The sums that the data would have in another place.
    fn sums_of(&mut self, place: usize) -> bool {
        let sums = Paper.sums(place, self.data());
        self.sums(|_| sums)
    }

    /// Adds to these bytes of the data, unless one of them would leave 0 to 255.
    fn add(&mut self, changes: &[(usize, i32)]) -> bool {
        let data = self.data();
        let sum = |(at, more): &(usize, i32)| u8::try_from(i32::from(data[*at]) + more).ok();
        let Some(new) = changes.iter().map(sum).collect::<Option<Vec<u8>>>() else { return false };
        changes.iter().zip(new).for_each(|((at, _), byte)| data[*at] = byte);
        true
    }

    /// The same with changes that are drawn, until they fit.
    fn drawn<const N: usize>(&mut self, draw: fn(&mut Rng, i32) -> [(usize, i32); N]) -> bool {
        (0..200).any(|k| {
            let most = if k % 2 == 0 { 3 } else { 100 };
            let step = 1 + self.rng.below(most) as i32;
            let step = self.rng.pick(&[step, -step]);
            let changes = draw(self.rng, step);
            self.add(&changes)
        })
    }

    fn one_byte(&mut self) -> bool {
        self.drawn(|rng, step| [(rng.below(DATA), step)])
    }

    /// Two bytes that differ change their places.
    fn exchange_bytes(&mut self) -> bool {
        (0..200).any(|_| {
            let (one, other) = (self.rng.below(DATA), self.rng.below(DATA));
            self.data().swap(one, other);
            self.data()[one] != self.data()[other]
        })
    }

    /// The right block of another place.
    fn other_block(&mut self) -> bool {
        let Some(with) = self.with else { return false };
        let other = Paper.block(with, &self.image[with * BLOCK + HEAD..][..DATA]);
        put(self.block(), &other);
        true
    }

    fn exchange_blocks(&mut self) -> bool {
        let Some(with) = self.with else { return false };
        let own = self.block().to_vec();
        let other = self.image[with * BLOCK..][..BLOCK].to_vec();
        put(self.block(), &other);
        put(&mut self.image[with * BLOCK..], &own);
        true
    }

    /// What fills up the last block; nothing of another.
    fn filler(&mut self) -> &mut [u8] {
        let behind = self.bytes.saturating_sub(self.place * DATA).min(DATA);
        &mut self.data()[behind..]
    }

    /// Other bytes fill up the block, with their own sums.
    fn filled(&mut self, fill: fn(&mut Rng, &mut [u8])) -> bool {
        let mut filler = self.filler().to_vec();
        fill(self.rng, &mut filler);
        put(self.filler(), &filler);
        self.sums_of(self.place) && !filler.is_empty()
    }

    fn all(&mut self, byte: u8) -> bool {
        self.block().fill(byte);
        true
    }

    fn random(&mut self, from: usize) -> bool {
        let random = self.rng.bytes(BLOCK - from);
        put(&mut self.block()[from..], &random);
        true
    }
}

const EXCHANGED: &str = "exchanged with another block";

const NOTHING: fn(usize) -> Option<Reason> = |_| None;
const NUMBER: fn(usize) -> Option<Reason> = |_| Some(Reason::Number);
const SUMS: fn(usize) -> Option<Reason> = |_| Some(Reason::Sums);

/// A block of zeros is right in place 0: the number is, and the sums of zeros from 0 on are 0.
const NUMBER_BUT_IN_0: fn(usize) -> Option<Reason> = |place| (place > 0).then_some(Reason::Number);

const fn row(
    name: &'static str,
    leaves: fn(usize) -> Option<Reason>,
    done: fn(&mut Spot) -> bool,
) -> Damage {
    Damage { name, leaves, done }
}

/// All of them. The second sum counts a byte as often as bytes follow it, and once more; so two changes that keep the
/// first sum change the second by their distance times the change, which is no multiple of 65,536.
pub static DAMAGES: [Damage; 36] = [
    row("number one more", NUMBER, |s| s.more(1)),
    row("number one less", NUMBER, |s| s.more(u32::MAX)),
    row("number 256 more", NUMBER, |s| s.more(256)),
    row("number 65,536 more", NUMBER, |s| s.more(65_536)),
    row("number with other high bytes", NUMBER, |s| {
        let high = u32::from(s.some());
        s.more(high << 16)
    }),
    row("number with its highest bit set", NUMBER, |s| s.more(1 << 31)),
    row("number with its highest byte first", NUMBER, |s| {
        s.number((s.place as u32).swap_bytes()) && s.place != 0
    }),
    row("number of another block", NUMBER, |s| s.with.is_some_and(|with| s.number(with as u32))),
    row("another first sum", SUMS, |s| {
        let some = s.some();
        s.more_of(some, 0)
    }),
    row("another second sum", SUMS, |s| {
        let some = s.some();
        s.more_of(0, some)
    }),
    row("other sums", SUMS, |s| {
        let (one, other) = (s.some(), s.some());
        s.more_of(one, other)
    }),
    row("first sum off by one", SUMS, |s| {
        let one = s.one(1);
        s.more_of(one, 0)
    }),
    row("second sum off by one", SUMS, |s| {
        let one = s.one(1);
        s.more_of(0, one)
    }),
    row("first sum off by 256", SUMS, |s| {
        let one = s.one(256);
        s.more_of(one, 0)
    }),
    row("second sum off by 256", SUMS, |s| {
        let one = s.one(256);
        s.more_of(0, one)
    }),
    row("sums exchanged", SUMS, |s| s.sums(|[first, second]| [second, first])),
    row("sums from 0 on", SUMS, |s| s.sums_of(0)),
    row("sums of another place", SUMS, |s| s.with.is_some_and(|with| s.sums_of(with))),
    row("one byte", SUMS, |s| s.one_byte()),
    row("two bytes exchanged", SUMS, |s| s.exchange_bytes()),
    row("two bytes, and the first sum stays", SUMS, |s| {
        s.drawn(|rng, step| {
            let one = rng.below(DATA);
            [(one, step), ((one + 1 + rng.below(DATA - 1)) % DATA, -step)]
        })
    }),
    row("two bytes, and the second sum stays", SUMS, |s| {
        s.drawn(|rng, step| {
            let from_the_end = 1 + rng.below(DATA / 2);
            [(DATA - 2 * from_the_end, step), (DATA - from_the_end, -2 * step)]
        })
    }),
    row("three bytes, and both sums stay", NOTHING, |s| {
        s.drawn(|rng, step| {
            let apart = 1 + rng.below(DATA / 2 - 1);
            let middle = apart + rng.below(DATA - 2 * apart);
            [(middle - apart, step), (middle, -2 * step), (middle + apart, step)]
        })
    }),
    row("data of FF", SUMS, |s| {
        let erased = s.data().iter().all(|byte| *byte == 0xFF);
        s.data().fill(0xFF);
        !erased
    }),
    row("number and a byte", NUMBER, |s| s.one_byte() && s.more(1)),
    row("number and sums", NUMBER, |s| {
        let (one, other) = (s.some(), s.some());
        s.more_of(one, other) && s.more(u32::from(one))
    }),
    row("zeros", NUMBER_BUT_IN_0, |s| s.all(0x00)),
    row("FF", NUMBER, |s| s.all(0xFF)),
    row("the block of another place", NUMBER, |s| s.other_block()),
    row(EXCHANGED, NUMBER, |s| s.exchange_blocks()),
    row("random bytes", NUMBER, |s| s.random(0)),
    row("random bytes behind the number", SUMS, |s| s.random(4)),
    row("other data with its own sums", NOTHING, |s| s.random(HEAD) && s.sums_of(s.place)),
    row("filled up with zeros", NOTHING, |s| s.filled(|_, filler| filler.fill(0x00))),
    row("filled up with random bytes", NOTHING, |s| s.filled(|rng, filler| rng.fill(filler))),
    row("filled up with another byte", SUMS, |s| {
        let at = s.rng.below(DATA);
        let filler = s.filler();
        let length = filler.len();
        filler.get_mut(at % length.max(1)).map(|byte| *byte ^= 0x55).is_some()
    }),
];
