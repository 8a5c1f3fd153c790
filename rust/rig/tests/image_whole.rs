//! Images on whole ranges: every byte of a block, every number and sum in a head, every choice of bad blocks, every
//! length and part number, on libm25p.a and as far as it goes on the model beside it; and the largest part.

#[path = "support/images.rs"]
mod images;

use images::{asked, compared, UNTOUCHED};
use m25p::calls;
use rig::compare::images::{step, Images};
use rig::faults;
use rig::image_model::{Call, ImageModel, BLOCK, HEAD, LIST_PLACE};
use rig::model::{Paper, PARTS};
use rig::rng::Rng;

/// Bytes of an array and of an image of the bench part, and of a list for it.
const ARRAY: usize = 4_096;
const IMAGE: usize = 9 * BLOCK;
const LIST: usize = 9 * LIST_PLACE;

/// An image of the bench part with random contents.
fn random_image(seed: u64) -> Vec<u8> {
    let mut image = vec![0; IMAGE];
    assert_eq!(calls::image_write(0, &Rng::new(seed).bytes(ARRAY), &mut image).bits(), 0);
    image
}

/// The blocks of an erased array of the bench part.
fn erased() -> Vec<u8> {
    let mut image = vec![0; IMAGE];
    assert_eq!(calls::image_write(0, &[0xFF; ARRAY], &mut image).bits(), 0);
    image
}

/// An image whose one block is changed again and again: the library must find just that one bad, for this reason.
struct Changed {
    right: Vec<u8>,
    place: usize,
    /// What it must become.
    salvaged: Vec<u8>,
}

impl Changed {
    fn new(place: usize) -> Changed {
        let right = random_image(place as u64);
        let mut salvaged = right.clone();
        let block = place * BLOCK..(place + 1) * BLOCK;
        salvaged[block.clone()].copy_from_slice(&erased()[block]);
        Changed { right, place, salvaged }
    }

    /// These bytes go over the block from one of them on.
    fn lost(&self, at: usize, bytes: &[u8], reason: u8) {
        let mut image = self.right.clone();
        image[self.place * BLOCK + at..][..bytes.len()].copy_from_slice(bytes);
        let told = || format!("block {}, {bytes:02X?} at {at}", self.place);
        let mut array = [UNTOUCHED; ARRAY];
        let word = calls::image_read(0, &image, &mut array).bits();
        assert_eq!(word, 33 | (self.place as u64) << 16, "{}", told());
        assert!(array == [UNTOUCHED; ARRAY], "{}", told());
        let mut list = [UNTOUCHED; LIST];
        let word = calls::image_salvage(0, &mut image, &mut list).bits();
        assert_eq!(word, 1 << 16, "{}", told());
        assert_eq!(list[..LIST_PLACE], [self.place as u8, 0, 0, 0, reason, 0, 0, 0], "{}", told());
        assert!(list[LIST_PLACE..] == [UNTOUCHED; LIST - LIST_PLACE], "{}", told());
        assert!(image == self.salvaged, "{}", told());
    }
}

/// One changed byte is always seen: in the number it is reason 1, in the sums and behind them reason 2.
#[test]
fn every_byte_of_a_block() {
    for place in [0, 4, 8] {
        let changed = Changed::new(place);
        for at in 0..BLOCK {
            let own = changed.right[place * BLOCK + at];
            for byte in (0..=255).filter(|byte| *byte != own) {
                changed.lost(at, &[byte], if at < 4 { 1 } else { 2 });
            }
        }
    }
}

/// Every number up to 70,000, every one with other high bytes alone, and every sum.
#[test]
fn every_number_and_sum() {
    let changed = Changed::new(5);
    let high = (1..=65_535).map(|high| high << 16 | 5);
    for number in (0..70_000_u32).chain(high).filter(|number| *number != 5) {
        changed.lost(0, &number.to_le_bytes(), 1);
    }
    for at in [4, 6] {
        let own = changed.right[5 * BLOCK + at..][..2].to_vec();
        for sum in (0..=u16::MAX).map(u16::to_le_bytes).filter(|sum| own != *sum) {
            changed.lost(at, &sum, 2);
        }
    }
}

fn answer(call: Call, bytes: [&[u8]; 2], lengths: [usize; 2]) -> u64 {
    compared(&asked(call, 0, bytes, lengths)).0
}

/// Each of the nine blocks right, with a wrong number, or with wrong sums.
#[test]
fn every_choice_of_bad_blocks() {
    let right = random_image(1);
    for choice in 0..3_usize.pow(9) {
        let mut image = right.clone();
        let mut lost = vec![];
        for place in 0..9 {
            let reason = choice / 3_usize.pow(place) % 3;
            let place = place as usize;
            image[place * BLOCK + [8, 1, 6][reason]] ^= [0x00, 0x10, 0x01][reason];
            if reason > 0 {
                lost.extend([place as u8, 0, 0, 0, reason as u8, 0, 0, 0]);
            }
        }
        let count = (lost.len() / LIST_PLACE) as u64;
        let first = lost.first().map_or(0, |first| 33 | u64::from(*first) << 16);
        assert_eq!(answer(Call::Read, [&image, &[]], [IMAGE, ARRAY]), first, "{choice}");
        let (word, left) = compared(&asked(Call::Salvage, 0, [&image, &[]], [IMAGE, LIST]));
        assert_eq!((word, &left.other.named()[..lost.len()]), (count << 16, &lost[..]), "{choice}");
    }
}

/// Each block of the M25P10-A alone with a wrong number, and with wrong sums.
#[test]
fn every_place() {
    let mut image = vec![0; 261 * BLOCK];
    let array = Rng::new(2).bytes(PARTS[1].bytes);
    assert_eq!(calls::image_write(1, &array, &mut image).bits(), 0);
    for place in 0..261 {
        for (reason, at, bits) in [(1, 0, 0x80), (2, 4, 0x80)] {
            let byte = place * BLOCK + at;
            image[byte] ^= bits;
            let (word, _) =
                compared(&asked(Call::Read, 5, [&image, &[]], [image.len(), array.len()]));
            assert_eq!(word, 33 | (place as u64) << 16);
            let lengths = [image.len(), 261 * LIST_PLACE];
            let (word, left) = compared(&asked(Call::Salvage, 1, [&image, &[]], lengths));
            let listed = [place as u8, (place / 256) as u8, 0, 0, reason, 0, 0, 0];
            assert_eq!((word, &left.other.named()[..LIST_PLACE]), (1 << 16, &listed[..]));
            image[byte] ^= bits;
        }
    }
}

/// Lists of up to 100 bytes, with no bad block, with one, and with nine.
#[test]
fn every_length_of_a_list() {
    let good = random_image(3);
    let mut bad = good.clone();
    bad[4 * BLOCK] = 0xFF;
    for (image, count) in [(good, 0), (bad, 1), (vec![0xFF; IMAGE], 9)] {
        for length in 0..=100 {
            let word = if length < LIST { 34 } else { count << 16 };
            assert_eq!(answer(Call::Salvage, [&image, &[]], [IMAGE, length]), word, "{length}");
        }
    }
}

#[test]
fn every_length_of_an_image() {
    let image = random_image(4);
    for length in 0..=5_200 {
        let number = if length == IMAGE { 0 } else { 32 };
        assert_eq!(answer(Call::Write, [&image, &[]], [length, ARRAY]), number, "{length}");
        assert_eq!(answer(Call::Read, [&image, &[]], [length, ARRAY]), number, "{length}");
        assert_eq!(answer(Call::Salvage, [&image, &[]], [length, LIST]), number, "{length}");
    }
}

#[test]
fn every_length_of_an_array() {
    let image = random_image(5);
    for length in 0..=4_200 {
        let number = if length == ARRAY { 0 } else { 2 };
        assert_eq!(answer(Call::Write, [&image, &[]], [IMAGE, length]), number, "{length}");
        assert_eq!(answer(Call::Read, [&image, &[]], [IMAGE, length]), number, "{length}");
    }
}

/// Numbers up to 70,000, and each part with one or two of the higher bits, have buffers that would fit the part of
/// the low byte, or the bench part. All are unknown, and no byte changes in all this time.
#[test]
fn every_part_number() {
    let wide = (8..32).flat_map(|bit| (8..=bit).map(move |other| 1_u32 << bit | 1 << other));
    let wide = wide.flat_map(|bits| (0..7).map(move |part| bits | part));
    let numbers: Vec<u32> = (7..70_000).chain(wide).collect();
    for (part, figures) in PARTS.iter().enumerate() {
        let blocks = Paper.blocks(figures.bytes);
        let lengths = [figures.bytes, blocks * BLOCK, blocks * LIST_PLACE];
        let [mut array, mut image, mut list] = lengths.map(|length| vec![UNTOUCHED; length]);
        let fits = |number: u32| if number % 256 < 7 { number as usize % 256 } else { 0 };
        for number in numbers.iter().copied().filter(|number| fits(*number) == part) {
            assert_eq!(calls::image_write(number, &array, &mut image).bits(), 31, "{number}");
            assert_eq!(calls::image_read(number, &image, &mut array).bits(), 31, "{number}");
            assert_eq!(calls::image_salvage(number, &mut image, &mut list).bits(), 31, "{number}");
        }
        assert!([array, image, list].concat().iter().all(|byte| *byte == UNTOUCHED));
    }
}

/// The largest part has blocks above 32,767: written, read with one of them bad, salvaged with some of them and with
/// all blocks bad. Faults that show there alone are seen.
#[test]
fn largest_part() {
    let (bytes, blocks) = (PARTS[4].bytes, 33_289);
    let array = Rng::new(6).bytes(bytes);
    let mut image = Paper.image(&array);
    let lengths = [blocks * BLOCK, bytes];
    let mut calls = vec![(0, asked(Call::Write, 4, [&[], &array], lengths))];
    calls.push((0, asked(Call::Read, 4, [&image, &[]], lengths)));
    let places = [256, 32_767, 32_768, 33_000, 33_288];
    for place in places {
        image[place * BLOCK + HEAD + place % 504] ^= 0x01;
    }
    let salvage = [blocks * BLOCK, blocks * LIST_PLACE + 3];
    calls.push((5 << 16, asked(Call::Salvage, 4, [&image, &[]], salvage)));
    for place in [256, 32_767] {
        image[place * BLOCK + HEAD + place % 504] ^= 0x01;
    }
    calls.push((33 | 32_768 << 16, asked(Call::Read, 4, [&image, &[]], lengths)));
    image.fill(0xFF);
    calls.push((33_289 << 16, asked(Call::Salvage, 4, [&image, &[]], salvage)));
    for (name, fault) in faults::LARGE_IMAGE {
        let seen = calls.iter().any(|(_, one)| step(one, *fault, &mut Images::default()).is_err());
        assert!(seen, "{name} was not seen");
    }
    for (word, one) in calls {
        assert_eq!(compared(&one).0, word);
    }
}
