//! Deliberate faults of images: all of them, and those of what is refused and what is told.

use super::blocks::*;
use super::named;
use super::salvage::*;
use crate::image_model::*;
use crate::model::Paper;

/// All of them but those of large parts.
pub const IMAGE: &[(&str, &dyn ImageModel)] = named![
    Adds(over_the_number),
    Adds(over_the_head),
    Adds(second_before_first),
    Adds(second_of_bytes),
    Adds(second_from_the_number),
    Adds(one_less),
    Adds(first_stays),
    Adds(in_a_byte),
    Adds(signed_bytes),
    Adds(backwards),
    Adds(without_the_last),
    Adds(without_the_first),
    Adds(without_the_filler),
    Starts(|_| 0),
    Starts(|place| place + 1),
    Starts(|place| place % 256),
    Heads(|number, sums| Paper.head(number.swap_bytes(), sums)),
    Heads(|number, sums| Paper.head(number, sums.map(u16::swap_bytes))),
    Heads(|number, [first, second]| Paper.head(number, [second, first])),
    Heads(|number, sums| Paper.head(number + 1, sums)),
    Heads(|number, sums| Paper.head(number % 256, sums)),
    Heads(sums_first),
    Covers(filled_with_zeros),
    Covers(filled_from_the_beginning),
    Covers(every_512),
    HeadBehind,
    FillerNotWritten,
    Judges(by_sums),
    Judges(by_number),
    Judges(sums_before_number),
    Judges(number_of_a_byte),
    Judges(number_of_two_bytes),
    Judges(number_without_its_highest_bit),
    Judges(first_sum_alone),
    Judges(second_sum_alone),
    Judges(first_sum_of_a_byte),
    Judges(second_sum_of_a_byte),
    Judges(high_bytes_of_sums),
    Judges(either_sum),
    Judges(sums_either_way),
    Judges(sums_from_zero),
    Judges(right_elsewhere),
    Judges(erased_is_good),
    Judges(zeros_are_good),
    Judges(zeros_are_bad),
    Judges(filler_counts),
    Judges(filler_as_written),
    Judges(last_is_good),
    Judges(first_is_good),
    Salvages(number_put_right),
    Salvages(sums_put_right),
    Salvages(zeros),
    Salvages(erased_throughout),
    Salvages(left_alone),
    Salvages(number_stays),
    Salvages(sums_stay),
    Salvages(last_byte_stays),
    Salvages(filler_stays),
    Salvages(head_of_block_0),
    Finds(first_alone),
    Finds(all_but_the_last),
    Finds(last_first),
    Finds(numbers_first),
    Finds(one_of_neighbours),
    Reasons(|reason| 3 - Paper.reason_number(reason)),
    Reasons(|reason| Paper.reason_number(reason) - 1),
    Enters(|number, reason| [reason, number]),
    Enters(|number, reason| [number + 1, reason]),
    Enters(|number, reason| [number % 256, reason]),
    Enters(|number, reason| [number.swap_bytes(), reason]),
    Enters(|number, reason| [number, reason.swap_bytes()]),
    Lists(with_gaps),
    Lists(at_the_end),
    Lists(over_each_other),
    Lists(from_the_second_place),
    Lists(not_at_all),
    Lists(others_cleared),
    Lists(odd_bytes_cleared),
    Lists(ended),
    Lists(number_in_two_bytes),
    Lists(reason_in_a_byte),
    Afterwards(good_rewritten),
    Afterwards(all_erased),
    Afterwards(numbers_that_stood),
    Afterwards(both_reasons),
    InOrder(Call::Write, &[32, 31, 2]),
    InOrder(Call::Write, &[31, 2, 32]),
    InOrder(Call::Read, &[32, 31, 2, 33]),
    InOrder(Call::Read, &[2, 31, 32, 33]),
    InOrder(Call::Read, &[31, 2, 32, 33]),
    // 33 is given before 2
    InOrder(Call::Read, &[31, 32, 33, 2]),
    // a bad block is read
    InOrder(Call::Read, &[31, 32, 2]),
    InOrder(Call::Salvage, &[32, 31, 34]),
    InOrder(Call::Salvage, &[31, 34, 32]),
    // 33 is given to salvage, too
    InOrder(Call::Salvage, &[31, 32, 34, 33]),
    Knows(|part| part % 256),
    Knows(|part| part % 65_536),
    Knows(|part| part & u32::MAX >> 1),
    Knows(|part| part.min(6)),
    // parts 5 and 6 are not known
    Knows(|part| if part > 4 { 7 } else { part }),
    Counts(|bytes| bytes / DATA),
    Counts(|bytes| bytes.div_ceil(BLOCK)),
    ImageFits(|length, blocks| length >= blocks * BLOCK),
    ImageFits(|length, blocks| length <= blocks * BLOCK),
    ImageFits(|length, blocks| length / BLOCK == blocks),
    ImageFits(|length, _| length % BLOCK == 0),
    ArrayFits(|length, bytes| length >= bytes),
    ArrayFits(|length, bytes| length <= bytes),
    ArrayFits(|length, bytes| length == bytes || length == bytes.div_ceil(DATA) * DATA),
    ListFits(|length, blocks, _| length.div_ceil(LIST_PLACE) >= blocks),
    ListFits(|length, blocks, _| length >= blocks),
    ListFits(|length, blocks, _| length == blocks * LIST_PLACE),
    ListFits(|length, blocks, _| length / LIST_PLACE > blocks),
    ListFits(|length, blocks, _| length % LIST_PLACE == 0 && length / LIST_PLACE >= blocks),
    ListFits(|length, _, image| length / LIST_PLACE >= Paper.lost(image).len()),
    ActsThough(Call::Write, 32),
    ActsThough(Call::Write, 2),
    ActsThough(Call::Read, 32),
    ActsThough(Call::Read, 2),
    ActsThough(Call::Read, 33),
    ActsThough(Call::Salvage, 32),
    ActsThough(Call::Salvage, 34),
    RefusedReadErases,
    Names(number_that_stands),
    Names(|image| Paper.lost(image).len()),
    Names(|image| Paper.lost(image).last().unwrap().0),
    Names(|image| Paper.named(image) + 1),
    Names(|image| Paper.named(image) % 256),
    Names(|_| 0),
    Tells(|number, _| Paper.told(number, 0)),
    Tells(|number, blocks| Paper.told(number, blocks % 256)),
    Tells(|number, blocks| u64::from(number) | (blocks as u64) << 8),
    Tells(|number, blocks| u64::from(number) | (blocks as u64) << 32),
];

/// Those that part 4 alone shows: it has blocks above 32,767.
pub const LARGE_IMAGE: &[(&str, &dyn ImageModel)] = named![
    Starts(|place| place % 32_768),
    Heads(|number, sums| Paper.head(number as i16 as u32, sums)),
    Enters(|number, reason| [number as i16 as u32, reason]),
    Tells(|number, blocks| Paper.told(number, blocks % 32_768)),
    Tells(|number, blocks| Paper.told(number, blocks as i16 as u32 as usize)),
];

/// The refusals of a call are looked at in another order.
struct InOrder(Call, &'static [u8]);

impl ImageModel for InOrder {
    fn order(&self, call: Call) -> &'static [u8] {
        if call == self.0 {
            return self.1;
        }
        Paper.order(call)
    }
}

/// A part number is taken for another.
struct Knows(fn(u32) -> u32);

impl ImageModel for Knows {
    fn bytes(&self, part: u32) -> Option<usize> {
        Paper.bytes(self.0(part))
    }
}

/// An array has another number of blocks.
struct Counts(fn(usize) -> usize);

impl ImageModel for Counts {
    fn blocks(&self, bytes: usize) -> usize {
        self.0(bytes)
    }
}

/// Other lengths of an image are right.
struct ImageFits(fn(usize, usize) -> bool);

impl ImageModel for ImageFits {
    fn image_fits(&self, length: usize, blocks: usize) -> bool {
        self.0(length, blocks)
    }
}

/// Other lengths of an array are right.
struct ArrayFits(fn(usize, usize) -> bool);

impl ImageModel for ArrayFits {
    fn array_fits(&self, length: usize, bytes: usize) -> bool {
        self.0(length, bytes)
    }
}

/// Other lengths of a list are enough.
struct ListFits(fn(usize, usize, &[u8]) -> bool);

impl ImageModel for ListFits {
    fn list_fits(&self, length: usize, blocks: usize, image: &[u8]) -> bool {
        self.0(length, blocks, image)
    }
}

/// The call is carried out as far as it goes, though it is refused with this number: a read up to the bad block.
struct ActsThough(Call, u8);

impl ActsThough {
    fn acts(&self, call: Call, word: u64) -> bool {
        (call, word as u8) == (self.0, self.1)
    }
}

impl ImageModel for ActsThough {
    fn write(&self, part: u32, array: &[u8], image: &mut [u8]) -> u64 {
        let word = Paper.write(part, array, image);
        if self.acts(Call::Write, word) {
            put(image, &self.image(array));
        }
        word
    }

    fn read(&self, part: u32, image: &[u8], array: &mut [u8]) -> u64 {
        let word = Paper.read(part, image, array);
        if self.acts(Call::Read, word) {
            let good = self.lost(image).first().map_or(image.len(), |lost| lost.0 * BLOCK);
            put(array, &self.array(&image[..good]));
        }
        word
    }

    fn salvage(&self, part: u32, image: &mut [u8], list: &mut [u8]) -> u64 {
        let word = Paper.salvage(part, image, list);
        if self.acts(Call::Salvage, word) {
            let lost = self.lost(image);
            self.salvage_all(image, &lost[..lost.len().min(list.len() / LIST_PLACE)]);
            self.list(list, &lost);
        }
        word
    }
}

/// A read that is refused for a bad block leaves FF.
struct RefusedReadErases;

impl ImageModel for RefusedReadErases {
    fn read(&self, part: u32, image: &[u8], array: &mut [u8]) -> u64 {
        let word = Paper.read(part, image, array);
        if word as u8 == 33 {
            array.fill(0xFF);
        }
        word
    }
}

/// 33 names something else.
struct Names(fn(&[u8]) -> usize);

impl ImageModel for Names {
    fn named(&self, image: &[u8]) -> usize {
        self.0(image)
    }
}

/// The number that stands in the bad block.
fn number_that_stands(image: &[u8]) -> usize {
    number(&image[Paper.named(image) * BLOCK..]) as usize
}

/// The 64 bits are put together otherwise.
struct Tells(fn(u8, usize) -> u64);

impl ImageModel for Tells {
    fn told(&self, number: u8, blocks: usize) -> u64 {
        self.0(number, blocks)
    }
}
