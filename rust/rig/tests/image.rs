//! Images against the model, over all seven parts, and what holds of the calls themselves. RIG_RUNS and RIG_SEED make
//! it longer or another.

#[path = "support/parts.rs"]
#[allow(dead_code)]
mod parts;

use m25p::calls;
use parts::{differs, each_episode, Plan, OFTEN, SEED};
use rig::compare::images::{episode, Images};
use rig::faults;
use rig::image_generate::{foreseen, ImageGenerator};
use rig::image_model::{BLOCK, DATA, HEAD, LIST_PLACE};
use rig::model::{Paper, PARTS, SMALL};
use rig::rng::Rng;
use rig::{number, tell};

const DEFAULT_RUNS: u64 = 40_000;

/// Images of the large parts take their time: they have fewer calls.
const PLAN: Plan =
    Plan { episode: [50, 20, 10, 5, 5, 20, 10], share: [4_000, 120, 25, 3, 1, 120, 25] };

#[test]
fn calls_equal_model() {
    let mut tally = Images::default();
    each_episode("image", number("RIG_RUNS", DEFAULT_RUNS), &PLAN, |part, calls, seed| {
        episode(part, calls, seed, &Paper, &mut tally)
    });
    tell(&format!("image: {}", tally.show()));
    assert_eq!(tally.seldom(OFTEN), [""; 0], "what came too seldom");
}

#[test]
fn faults_are_seen() {
    let mut tally = Images::default();
    for (name, fault) in faults::IMAGE {
        differs(name, &PLAN, &[0, 1], 200, |part, calls, seed| {
            episode(part, calls, seed, *fault, &mut tally)
        });
    }
    tell(&format!("image: {} faults seen in {} calls", faults::IMAGE.len(), tally.calls));
}

/// A generator for each part, and how many images it is to make: fewer of the large ones.
fn each_generator(mut look: impl FnMut(u32, &mut ImageGenerator)) {
    let mut seeds = Rng::new(number("RIG_SEED", SEED));
    for (part, images) in [1_000, 60, 20, 3, 1, 60, 20].into_iter().enumerate() {
        let mut generator = ImageGenerator::new(part, seeds.draw());
        (0..images).for_each(|_| look(part as u32, &mut generator));
    }
}

/// The call's 64 bits and the array of an image, which was filled with 33 before.
fn read(part: u32, image: &[u8]) -> (u64, Vec<u8>) {
    let mut array = vec![0x33; PARTS[part as usize].bytes];
    (calls::image_read(part, image, &mut array).bits(), array)
}

/// The image of an array.
fn write(part: u32, array: &[u8]) -> Vec<u8> {
    let mut image = vec![0x44; array.len().div_ceil(DATA) * BLOCK];
    assert_eq!(calls::image_write(part, array, &mut image).bits(), 0);
    image
}

/// What stands in a list before a call.
const UNTOUCHED: u8 = 0x55;

/// Salvages an image: how many blocks were changed, and the whole list.
fn salvage(part: u32, image: &mut [u8]) -> (usize, Vec<u8>) {
    let mut list = vec![UNTOUCHED; image.len() / BLOCK * LIST_PLACE + 5];
    let word = calls::image_salvage(part, image, &mut list).bits();
    assert_eq!(word & !0xFFFF_FFFF_0000, 0, "the answer is 0");
    ((word >> 16) as usize, list)
}

/// Reading what was written gives the array back, and there is nothing to salvage in it. The blocks are the array in
/// order, each behind its number.
#[test]
fn reads_back_what_was_written() {
    each_generator(|part, generator| {
        let array = generator.array();
        let mut image = write(part, &array);
        assert!(read(part, &image) == (0, array.clone()), "part {part}");
        for (place, block) in image.chunks(BLOCK).enumerate() {
            let covered = &array[place * DATA..array.len().min((place + 1) * DATA)];
            assert_eq!(block[..4], (place as u32).to_le_bytes());
            assert!(block[HEAD..].starts_with(covered));
            assert!(block[HEAD + covered.len()..].iter().all(|byte| *byte == 0xFF));
        }
        let before = image.clone();
        let (changed, list) = salvage(part, &mut image);
        assert!(changed == 0 && image == before && list.iter().all(|byte| *byte == UNTOUCHED));
    });
}

/// The list names exactly the blocks that differ afterwards, in order, each with the reason that its damage
/// foretells; these are FF, the others stay, and the reader takes the image.
#[test]
fn salvage_changes_what_it_lists() {
    let mut changed_in_all = 0;
    each_generator(|part, generator| {
        let damaged = generator.damaged();
        let mut image = damaged.image.clone();
        let (changed, list) = salvage(part, &mut image);
        let pairs = damaged.image.chunks(BLOCK).zip(image.chunks(BLOCK)).enumerate();
        let differ: Vec<usize> = pairs.filter(|(_, two)| two.0 != two.1).map(|one| one.0).collect();
        let expected = foreseen(&damaged.done);
        let places: Vec<usize> = expected.iter().map(|one| one.0).collect();
        assert_eq!((differ.len(), &differ), (changed, &places));
        let entries = expected.into_iter().flat_map(|(place, reason)| {
            [(place as u32).to_le_bytes(), (reason as u32 + 1).to_le_bytes()]
        });
        let entries: Vec<u8> = entries.flatten().collect();
        assert!(list.starts_with(&entries));
        assert!(list[entries.len()..].iter().all(|byte| *byte == UNTOUCHED));

        let (word, array) = read(part, &image);
        assert_eq!(word, 0);
        let erased = |place: usize| places.binary_search(&place).is_ok();
        let was = |at: usize| damaged.image[at / DATA * BLOCK + HEAD + at % DATA];
        let right = |at: usize| if erased(at / DATA) { 0xFF } else { was(at) };
        assert!(array.iter().enumerate().all(|(at, byte)| *byte == right(at)));
        changed_in_all += changed;
    });
    tell(&format!("image: {changed_in_all} blocks salvaged as foreseen"));
    assert!(changed_in_all > 1_000);
}

/// The second salvage changes nothing more, and leaves its list untouched.
#[test]
fn salvaged_twice() {
    each_generator(|part, generator| {
        let mut image = generator.damaged().image;
        salvage(part, &mut image);
        let once = image.clone();
        let (changed, list) = salvage(part, &mut image);
        assert!(changed == 0 && image == once && list.iter().all(|byte| *byte == UNTOUCHED));
    });
}

/// The reader takes an image just if there is nothing to salvage in it, and else names the block that is listed
/// first. What it takes and is written again differs at most in what fills up the last block, and in that one's sums.
#[test]
fn reader_and_salvage_agree() {
    let mut other_filler = 0;
    each_generator(|part, generator| {
        let image = generator.damaged().image;
        let (word, array) = read(part, &image);
        let (changed, list) = salvage(part, &mut image.clone());
        if changed > 0 {
            let first = u32::from_le_bytes(list[..4].try_into().unwrap());
            assert_eq!(word, 33 | u64::from(first) << 16);
            assert!(array.iter().all(|byte| *byte == 0x33));
            return;
        }
        assert_eq!(word, 0);
        let again = write(part, &array);
        let last = image.len() - BLOCK;
        let filler = last + HEAD + array.len() % DATA;
        assert!(again[..last + 4] == image[..last + 4]);
        assert!(again[last + HEAD..filler] == image[last + HEAD..filler]);
        other_filler += u64::from(again != image);
    });
    assert!(other_filler >= OFTEN, "{other_filler} images with other filler only");
}

/// A refused call leaves every byte as it was.
#[test]
fn refused_changes_nothing() {
    let mut answers = [0; 35];
    let mut seeds = Rng::new(number("RIG_SEED", SEED));
    for part in SMALL {
        let mut generator = ImageGenerator::new(part, seeds.draw());
        for _ in 0..800 {
            let mut asked = generator.asked();
            let (image, other) = (asked.image.bytes.clone(), asked.other.bytes.clone());
            let answer = asked.ask() as u8;
            answers[usize::from(answer)] += 1;
            assert!(answer == 0 || asked.image.bytes == image && asked.other.bytes == other);
        }
    }
    let refused = [2, 31, 32, 33, 34].map(|number| answers[number]);
    tell(&format!("image: nothing changed with 2, 31, 32, 33, 34: {refused:?}"));
    assert!(refused.into_iter().all(|times| times >= OFTEN));
}
