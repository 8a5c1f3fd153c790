//! What came up in a comparison of images, so that a test can see that nothing was left out.

use super::Asked;
use crate::image_generate::{Done, DAMAGES};
use crate::image_model::*;
use crate::model::{Paper, PARTS};

/// A call that was answered, and what it met.
pub struct Met<'a> {
    asked: &'a Asked,
    word: u64,
    /// The size of the part, and the length that its image should have; those of the number's lowest byte where the
    /// part is unknown.
    bytes: usize,
    image: usize,
    /// The bad blocks of an image that is read or salvaged and has the part's length.
    pub lost: Vec<Lost>,
}

impl<'a> Met<'a> {
    pub fn new(asked: &'a Asked, word: u64) -> Met<'a> {
        let part = PARTS.get(asked.part as usize % 256);
        let bytes = part.map_or(0, |part| part.bytes);
        let image = Paper.blocks(bytes) * BLOCK;
        let mut met = Met { asked, word, bytes, image, lost: vec![] };
        if met.whole() {
            met.lost = Paper.lost(asked.image.named());
        }
        met
    }

    /// Whether the image has the part's length, and is read or salvaged.
    pub fn whole(&self) -> bool {
        self.asked.call != Call::Write && self.image > 0 && self.asked.image.length() == self.image
    }

    fn answered(&self, call: Call, number: u8) -> bool {
        self.asked.call == call && self.word as u8 == number
    }

    /// Whether any call answered so.
    fn any(&self, number: u8) -> bool {
        self.word as u8 == number
    }

    /// Whether the part is unknown and such.
    fn unknown(&self, such: fn(u32) -> bool) -> bool {
        self.any(31) && such(self.asked.part)
    }

    /// Whether the image has a wrong length, longer by so many bytes.
    fn image_longer(&self, bytes: isize) -> bool {
        self.any(32) && self.asked.image.length() as isize == self.image as isize + bytes
    }

    /// Whether the image is refused with this length, which is not 0.
    fn image_of(&self, length: usize) -> bool {
        self.any(32) && self.asked.image.length() == length && length > 0
    }

    /// Whether the array has a wrong length, longer by so many bytes.
    fn array_longer(&self, bytes: isize) -> bool {
        self.any(2) && self.asked.other.length() as isize == self.bytes as isize + bytes
    }

    fn array_of(&self, length: usize) -> bool {
        self.any(2) && self.asked.other.length() == length
    }

    fn other_is(&self, length: usize) -> bool {
        self.asked.other.length() == length
    }

    /// How many blocks the image should have, and the place of the last.
    fn blocks(&self) -> usize {
        self.image / BLOCK
    }

    fn last(&self) -> usize {
        self.blocks() - 1
    }

    /// By how many bytes a list is longer than needed.
    fn list_longer(&self) -> isize {
        self.asked.other.length() as isize - (self.blocks() * LIST_PLACE) as isize
    }

    /// Whether a salvage was carried out, with such bad blocks.
    fn salvaged(&self, such: impl FnOnce(&[Lost]) -> bool) -> bool {
        self.answered(Call::Salvage, 0) && such(&self.lost)
    }

    /// Whether an image was refused as bad, with such bad blocks.
    fn bad(&self, such: impl FnOnce(&[Lost]) -> bool) -> bool {
        self.answered(Call::Read, 33) && such(&self.lost)
    }

    fn block(&self, place: usize) -> &[u8] {
        &self.asked.image.named()[place * BLOCK..][..BLOCK]
    }

    /// Whether a salvage found a bad block that is such.
    fn changed(&self, such: fn(usize, Reason, &[u8]) -> bool) -> bool {
        let such = |lost: &Lost| such(lost.0, lost.1, self.block(lost.0));
        self.salvaged(|lost| lost.iter().any(such))
    }

    /// Whether these two reasons follow each other in the list.
    fn in_turn(&self, reasons: [Reason; 2]) -> bool {
        self.salvaged(|lost| lost.windows(2).any(|two| [two[0].1, two[1].1] == reasons))
    }

    fn last_is_lost(&self) -> bool {
        self.lost.last().is_some_and(|lost| lost.0 == self.last())
    }

    /// Whether the last block is filled up with something other than FF.
    fn filler(&self) -> bool {
        let behind = self.bytes - self.last() * DATA;
        self.block(self.last())[HEAD + behind..].iter().any(|byte| *byte != 0xFF)
    }
}

/// What is counted.
type Event = (&'static str, fn(&Met) -> bool);

/// Answers by call, and what was refused.
const REFUSED: [Event; 46] = [
    ("written", |m| m.answered(Call::Write, 0)),
    ("write 31", |m| m.answered(Call::Write, 31)),
    ("write 32", |m| m.answered(Call::Write, 32)),
    ("write 2", |m| m.answered(Call::Write, 2)),
    ("read", |m| m.answered(Call::Read, 0)),
    ("read 31", |m| m.answered(Call::Read, 31)),
    ("read 32", |m| m.answered(Call::Read, 32)),
    ("read 2", |m| m.answered(Call::Read, 2)),
    ("read 33", |m| m.answered(Call::Read, 33)),
    ("salvaged", |m| m.answered(Call::Salvage, 0)),
    ("salvage 31", |m| m.answered(Call::Salvage, 31)),
    ("salvage 32", |m| m.answered(Call::Salvage, 32)),
    ("salvage 34", |m| m.answered(Call::Salvage, 34)),
    ("part 7", |m| m.unknown(|part| part == 7)),
    ("part 255", |m| m.unknown(|part| part == 255)),
    ("part 2^32 - 1", |m| m.unknown(|part| part == u32::MAX)),
    ("a part of 9 to 31 bits", |m| {
        m.unknown(|part| part > 255 && part >> 31 == 0 && part % 256 < 7)
    }),
    ("a part of 17 to 31 bits", |m| m.unknown(|part| part >> 16 != 0 && part as u16 <= 6)),
    ("a part with the highest bit", |m| m.unknown(|part| part << 1 < 14)),
    ("31, and the image would fit", |m| {
        m.any(31) && m.image > 0 && m.asked.image.length() == m.image
    }),
    ("31 before 32", |m| m.any(31) && m.image > 0 && m.asked.image.length() != m.image),
    ("image a byte short", |m| m.image_longer(-1)),
    ("image a byte long", |m| m.image_longer(1)),
    ("image a block short", |m| m.image_longer(-512)),
    ("image a block long", |m| m.image_longer(512)),
    ("image 511 bytes long", |m| m.image_longer(511)),
    ("image of no bytes", |m| m.any(32) && m.asked.image.length() == 0),
    ("image as long as the array", |m| m.image_of(m.bytes)),
    ("image as long as it has blocks", |m| m.image_of(m.blocks())),
    ("image of the bench part", |m| m.image_of(9 * 512)),
    ("image of the M25P10-A", |m| m.image_of(261 * 512)),
    ("32 before 2", |m| m.answered(Call::Read, 32) && !m.other_is(m.bytes)),
    ("32 before 34", |m| m.answered(Call::Salvage, 32) && m.list_longer() < 0),
    ("array a byte short", |m| m.array_longer(-1)),
    ("array a byte long", |m| m.array_longer(1)),
    ("array 504 bytes short", |m| m.array_longer(-504)),
    ("array 504 bytes long", |m| m.array_longer(504)),
    ("array of no bytes", |m| m.array_of(0)),
    ("array of all blocks", |m| m.array_of(m.blocks() * DATA)),
    ("array as long as the image", |m| m.array_of(m.image)),
    ("2 before 33", |m| m.answered(Call::Read, 2) && !m.lost.is_empty()),
    ("list a byte short", |m| m.any(34) && m.list_longer() == -1),
    ("list a place short", |m| m.any(34) && m.list_longer() == -8),
    ("list of no bytes", |m| m.any(34) && m.other_is(0)),
    ("list of the bad blocks alone", |m| m.any(34) && m.other_is(8 * m.lost.len().max(1))),
    ("list of as many bytes as blocks", |m| m.any(34) && m.other_is(m.blocks())),
];

/// What was met in arrays, images and lists.
const CARRIED_OUT: [Event; 38] = [
    ("34 with bad blocks", |m| m.any(34) && !m.lost.is_empty()),
    ("34 without a bad block", |m| m.any(34) && m.lost.is_empty()),
    ("array of FF", |m| m.answered(Call::Write, 0) && all(m.asked.other.named(), 0xFF)),
    ("array of zeros", |m| m.answered(Call::Write, 0) && all(m.asked.other.named(), 0x00)),
    ("read, other filler", |m| m.answered(Call::Read, 0) && m.filler()),
    ("bad behind good ones", |m| m.bad(|lost| lost[0].0 > 0)),
    ("bad at the beginning", |m| m.bad(|lost| lost[0].0 == 0)),
    ("bad at the end alone", |m| m.bad(|lost| lost[0].0 == m.last())),
    ("bad before other bad ones", |m| m.bad(|lost| lost.len() > 1)),
    ("bad by its number", |m| m.bad(|lost| lost[0].1 == Reason::Number)),
    ("bad by its sums", |m| m.bad(|lost| lost[0].1 == Reason::Sums)),
    ("bad by its sums, before a number", |m| {
        m.bad(|lost| lost[0].1 == Reason::Sums && lost.iter().any(|one| one.1 == Reason::Number))
    }),
    ("bad above block 255", |m| m.bad(|lost| lost[0].0 > 255)),
    ("nothing to salvage", |m| m.salvaged(|lost| lost.is_empty())),
    ("nothing to salvage, other filler", |m| m.salvaged(|lost| lost.is_empty()) && m.filler()),
    ("zeros left in place 0", |m| m.salvaged(|_| all(m.block(0), 0x00))),
    ("one salvaged", |m| m.salvaged(|lost| lost.len() == 1)),
    ("all salvaged", |m| m.salvaged(|lost| lost.len() == m.blocks())),
    ("above 255 salvaged", |m| m.salvaged(|lost| lost.len() > 255)),
    ("block 0 salvaged", |m| m.salvaged(|lost| lost.first().is_some_and(|one| one.0 == 0))),
    ("the last salvaged", |m| m.salvaged(|_| m.last_is_lost())),
    ("the last salvaged, other filler", |m| m.salvaged(|_| m.last_is_lost()) && m.filler()),
    ("other filler left, others salvaged", |m| {
        m.salvaged(|lost| !lost.is_empty() && !m.last_is_lost()) && m.filler()
    }),
    ("salvaged above block 255", |m| m.changed(|place, _, _| place > 255)),
    ("neighbours salvaged", |m| {
        m.salvaged(|lost| lost.windows(2).any(|two| two[0].0 + 1 == two[1].0))
    }),
    ("good ones between salvaged ones", |m| {
        m.salvaged(|lost| lost.windows(2).any(|two| two[0].0 + 1 < two[1].0))
    }),
    ("a number, then sums", |m| m.in_turn([Reason::Number, Reason::Sums])),
    ("sums, then a number", |m| m.in_turn([Reason::Sums, Reason::Number])),
    ("number wrong, and sums", |m| {
        m.changed(|place, why, block| why == Reason::Number && Paper.sums_wrong(place, block))
    }),
    ("number wrong, sums right", |m| {
        m.changed(|place, why, block| why == Reason::Number && !Paper.sums_wrong(place, block))
    }),
    ("first sum wrong alone", |m| {
        m.changed(|place, _, block| wrong(place, block) == [true, false])
    }),
    ("second sum wrong alone", |m| {
        m.changed(|place, _, block| wrong(place, block) == [false, true])
    }),
    ("salvaged though its data were FF", |m| m.changed(|_, _, block| all(&block[HEAD..], 0xFF))),
    ("list just long enough", |m| m.salvaged(|lost| !lost.is_empty()) && m.list_longer() == 0),
    ("list a byte long", |m| m.salvaged(|_| m.list_longer() == 1)),
    ("list a byte short of a place more", |m| m.salvaged(|_| m.list_longer() == 7)),
    ("list a place long", |m| m.salvaged(|_| m.list_longer() == 8)),
    ("list several places long", |m| m.salvaged(|_| m.list_longer() > 16)),
];

fn all(bytes: &[u8], byte: u8) -> bool {
    bytes.iter().all(|one| *one == byte)
}

/// Which of the sums is wrong, of a block whose number is right.
fn wrong(place: usize, block: &[u8]) -> [bool; 2] {
    let (stand, right) = (sums(block), Paper.sums(place, &block[HEAD..]));
    [0, 1].map(|which| number(block) as usize == place && stand[which] != right[which])
}

/// How often each came, and how often each kind of damage was met in an image of the right length.
pub struct Images {
    pub calls: u64,
    refused: [u64; REFUSED.len()],
    carried_out: [u64; CARRIED_OUT.len()],
    damages: [u64; DAMAGES.len()],
}

impl Default for Images {
    fn default() -> Images {
        let (refused, carried_out) = ([0; REFUSED.len()], [0; CARRIED_OUT.len()]);
        Images { calls: 0, refused, carried_out, damages: [0; DAMAGES.len()] }
    }
}

impl Images {
    pub fn count(&mut self, met: &Met) {
        self.calls += 1;
        for (times, (_, is)) in self.refused.iter_mut().zip(REFUSED) {
            *times += u64::from(is(met));
        }
        for (times, (_, is)) in self.carried_out.iter_mut().zip(CARRIED_OUT) {
            *times += u64::from(is(met));
        }
        if met.whole() && (met.any(0) || met.any(33)) {
            met.asked.done.iter().for_each(|done| self.damaged(done));
        }
    }

    fn damaged(&mut self, done: &Done) {
        done.values().for_each(|which| self.damages[*which] += 1);
    }

    /// All that is counted, and how often it came.
    fn came(&self) -> Vec<(&'static str, u64)> {
        let events = REFUSED.iter().zip(self.refused);
        let events = events.chain(CARRIED_OUT.iter().zip(self.carried_out));
        let events = events.map(|((name, _), times)| (*name, times));
        let damages = DAMAGES.iter().zip(self.damages).map(|(damage, times)| (damage.name, times));
        events.chain(damages).collect()
    }

    /// What came less than so many times.
    pub fn seldom(&self, times: u64) -> Vec<&'static str> {
        let seldom = self.came().into_iter().filter(|(_, came)| *came < times);
        seldom.map(|(name, _)| name).collect()
    }

    /// All counts in a line.
    pub fn show(&self) -> String {
        let came = self.came().into_iter().map(|(name, times)| format!("{name} {times}"));
        format!("{} calls; {}", self.calls, came.collect::<Vec<_>>().join(", "))
    }
}
