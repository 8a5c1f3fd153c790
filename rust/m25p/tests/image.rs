//! Chip images: their bytes, the array back from them, blocks that are bad in every way, what salvage leaves and lists, and
//! what is refused.

use m25p::image::{self, Lost, Reason, Unread, ARRAY_BYTES, BLOCK_BYTES, PLACE_BYTES};
use m25p::{calls, Answer, Part};

/// An array without a pattern, another for every seed.
fn array(part: Part, seed: u32) -> Vec<u8> {
    let mut state = seed;
    let mut draw = || {
        state = state.wrapping_mul(1_664_525).wrapping_add(1_013_904_223);
        (state >> 24) as u8
    };
    (0..part.bytes()).map(|_| draw()).collect()
}

/// The sums of a block at once: byte i is in the first sum once, and in the second 504 - i times.
fn sums(place: usize, data: &[u8]) -> [u16; 2] {
    let first: usize = data.iter().map(|byte| usize::from(*byte)).sum();
    let weighed = data.iter().enumerate().map(|(i, byte)| (504 - i) * usize::from(*byte));
    [place + first, 504 * place + weighed.sum::<usize>()].map(|sum| (sum % 65_536) as u16)
}

/// A good block in this place.
fn good(place: usize, data: &[u8]) -> Vec<u8> {
    assert_eq!(data.len(), ARRAY_BYTES);
    let [first, second] = sums(place, data).map(u16::to_le_bytes);
    [&(place as u32).to_le_bytes(), &first[..], &second, data].concat()
}

/// The image of an array.
fn image_of(array: &[u8]) -> Vec<u8> {
    let blocks = array.chunks(ARRAY_BYTES).enumerate().map(|(place, data)| {
        let mut data = data.to_vec();
        data.resize(ARRAY_BYTES, 0xFF);
        good(place, &data)
    });
    blocks.collect::<Vec<_>>().concat()
}

fn block(image: &mut [u8], place: usize) -> &mut [u8] {
    &mut image[place * BLOCK_BYTES..][..BLOCK_BYTES]
}

#[test]
fn sizes() {
    let blocks = [9, 261, 1_041, 8_323, 33_289, 261, 1_041];
    assert_eq!(Part::ALL.map(Part::blocks), blocks);
    assert_eq!(Part::ALL.map(Part::image_bytes), blocks.map(|count| count * 512));
    assert_eq!((BLOCK_BYTES, ARRAY_BYTES, PLACE_BYTES), (512, 504, 8));
}

/// Zeros, byte by byte: a sum is the block's number, or 504 times that; the last block is 64 zeros and 440 times FF.
#[test]
fn bytes_of_an_image() {
    let image = image::write(Part::Bench, &[0; 4_096]).unwrap();
    let head = |place: usize| image[place * 512..][..8].to_vec();
    assert_eq!(head(0), [0; 8]);
    assert_eq!(head(1), [1, 0, 0, 0, 1, 0, 0xF8, 0x01]);
    assert_eq!(head(7), [7, 0, 0, 0, 7, 0, 0xC8, 0x0D]);
    assert_eq!(head(8), [8, 0, 0, 0, 0x50, 0xB6, 0xC4, 0x90]);
    let (data, filler) = image[8 * 512 + 8..].split_at(64);
    assert_eq!((data, filler), (&[0; 64][..], &[0xFF; 440][..]));
}

/// All parts: the image is that of the rule, the array comes back, and there is nothing to salvage.
#[test]
fn round_trip() {
    for part in Part::ALL {
        for array in [array(part, 1), vec![0xFF; part.bytes()]] {
            let image = image::write(part, &array).unwrap();
            assert!(image == image_of(&array), "{part}: another image than the rule's");
            assert!(image::read(part, &image).as_ref() == Ok(&array), "{part}: another array");
            let mut salvaged = image.clone();
            assert_eq!(image::salvage(part, &mut salvaged), Ok(vec![]), "{part}");
            assert!(salvaged == image, "{part}: good blocks were changed");
        }
    }
}

/// Parts of one size read each other's images, others do not.
#[test]
fn images_of_other_parts() {
    for (writer, reader) in Part::ALL.into_iter().flat_map(|part| Part::ALL.map(|p| (part, p))) {
        if writer == Part::M25p128 || reader == Part::M25p128 {
            continue;
        }
        let image = image::write(writer, &array(writer, 2)).unwrap();
        let read = image::read(reader, &image);
        let same = writer.bytes() == reader.bytes();
        let unread = Unread { answer: Answer::ImageLength, block: None };
        assert!(read == if same { Ok(array(writer, 2)) } else { Err(unread) }, "{writer} {reader}");
    }
}

/// Every way to spoil a block: which byte, and what it becomes less.
const SPOILED: [(usize, Reason); 12] = [
    (0, Reason::Number),
    (1, Reason::Number),
    (2, Reason::Number),
    (3, Reason::Number),
    (4, Reason::Sums),
    (5, Reason::Sums),
    (6, Reason::Sums),
    (7, Reason::Sums),
    (8, Reason::Sums),
    (255, Reason::Sums),
    (256, Reason::Sums),
    (511, Reason::Sums),
];

/// One bit of one block: the reader names the block, salvage makes it FF, and nothing else changes.
#[test]
fn one_bit() {
    let part = Part::Bench;
    let written = image_of(&array(part, 3));
    for place in 0..part.blocks() {
        for ((at, reason), bit) in SPOILED.into_iter().zip((0..8).cycle()) {
            let mut image = written.clone();
            block(&mut image, place)[at] ^= 1 << bit;
            let unread = Unread { answer: Answer::BadBlock, block: Some(place) };
            assert_eq!(image::read(part, &image), Err(unread), "block {place}, byte {at}");
            let lost = image::salvage(part, &mut image).unwrap();
            assert_eq!(lost, [Lost { block: place, reason }], "block {place}, byte {at}");
            let mut expected = written.clone();
            block(&mut expected, place).copy_from_slice(&good(place, &[0xFF; ARRAY_BYTES]));
            assert_eq!(image, expected, "block {place}, byte {at}");
        }
    }
}

/// Damage to the largest part's blocks: the first and last, and those behind which a place has another byte.
#[test]
fn blocks_far_behind() {
    let part = Part::M25p128;
    let array = array(part, 4);
    let mut image = image_of(&array);
    let places = [0, 255, 256, 32_767, 32_768, part.blocks() - 1];
    let mut left = array.clone();
    for place in places {
        block(&mut image, place)[9] ^= 0x80;
        let lost = Lost { block: place, reason: Reason::Sums };
        left[lost.array_range(part)].fill(0xFF);
    }
    for place in places {
        let unread = Unread { answer: Answer::BadBlock, block: Some(place) };
        assert!(image::read(part, &image) == Err(unread), "block {place}");
        block(&mut image, place)[9] ^= 0x80;
    }
    places.iter().for_each(|place| block(&mut image, *place)[9] ^= 0x80);
    let lost = image::salvage(part, &mut image).unwrap();
    assert_eq!(lost, places.map(|block| Lost { block, reason: Reason::Sums }));
    assert!(image::read(part, &image) == Ok(left));
}

/// Two bad blocks with good ones around them: what is left of the array, and a second salvage.
#[test]
fn what_is_saved() {
    for part in Part::ALL {
        let array = array(part, 5);
        let mut image = image_of(&array);
        let last = part.blocks() - 1;
        block(&mut image, 2)[..4].copy_from_slice(&7_u32.to_le_bytes());
        block(&mut image, last)[100] ^= 0x10;
        let lost = image::salvage(part, &mut image).unwrap();
        let expected = [(2, Reason::Number), (last, Reason::Sums)];
        assert_eq!(lost, expected.map(|(block, reason)| Lost { block, reason }), "{part}");
        let mut left = array.clone();
        lost.iter().for_each(|lost| left[lost.array_range(part)].fill(0xFF));
        assert!(image == image_of(&left), "{part}: another image than that of what is left");
        let once = image.clone();
        assert_eq!(image::salvage(part, &mut image), Ok(vec![]), "{part}, a second time");
        assert!(image == once, "{part}, a second time");
    }
}

/// Every block is bad, by turns for its number and for its sums.
#[test]
fn all_bad() {
    for part in [Part::M25p10a, Part::M25p128] {
        let mut image = image_of(&array(part, 6));
        let expected = (0..part.blocks()).map(|place| {
            let (at, reason) = SPOILED[place % SPOILED.len()];
            block(&mut image, place)[at] ^= 0x01;
            Lost { block: place, reason }
        });
        let expected: Vec<Lost> = expected.collect();
        assert!(image::salvage(part, &mut image) == Ok(expected), "{part}: another list");
        assert!(image == image_of(&vec![0xFF; part.bytes()]), "{part}: another image");
    }
}

/// A block with a wrong number and wrong sums is lost for its number. One in another's place is bad although it is right
/// by itself, and the reader names the place and not the number in it.
#[test]
fn blocks_in_other_places() {
    let part = Part::Bench;
    let mut image = image_of(&array(part, 7));
    let third = block(&mut image, 3).to_vec();
    block(&mut image, 5).copy_from_slice(&third);
    block(&mut image, 6)[..9].fill(0x77);
    let unread = image::read(part, &image).unwrap_err();
    assert_eq!((unread.answer, unread.block), (Answer::BadBlock, Some(5)));
    let lost = image::salvage(part, &mut image).unwrap();
    assert_eq!(lost, [5, 6].map(|block| Lost { block, reason: Reason::Number }));
}

/// A number that is right only in its low 16 bits is wrong, and sums that belong to it do not help.
#[test]
fn numbers_are_taken_whole() {
    let part = Part::Bench;
    let mut image = image_of(&array(part, 8));
    for (place, byte) in [(1, 2), (2, 3)] {
        block(&mut image, place)[byte] = 0x01;
    }
    let lost = image::salvage(part, &mut image).unwrap();
    assert_eq!(lost, [1, 2].map(|block| Lost { block, reason: Reason::Number }));
}

/// What fills up the last block: with the sums that belong to it any bytes are good, and they are not read.
#[test]
fn filled_up_with_others() {
    for part in Part::ALL {
        let array = array(part, 9);
        let mut image = image_of(&array);
        let last = part.blocks() - 1;
        let used = part.bytes() - last * ARRAY_BYTES;
        let mut data = block(&mut image, last)[8..].to_vec();
        data[used..].iter_mut().enumerate().for_each(|(i, byte)| *byte = i as u8);
        block(&mut image, last).copy_from_slice(&good(last, &data));
        assert!(image::read(part, &image).as_ref() == Ok(&array), "{part}");
        let before = image.clone();
        assert_eq!(image::salvage(part, &mut image), Ok(vec![]), "{part}");
        assert!(image == before && image != image_of(&array), "{part}");
        // The same bytes with the sums of FF are a bad block.
        let head = image_of(&array)[last * BLOCK_BYTES..][..8].to_vec();
        block(&mut image, last)[..8].copy_from_slice(&head);
        let unread = Unread { answer: Answer::BadBlock, block: Some(last) };
        assert!(image::read(part, &image) == Err(unread), "{part}");
    }
}

/// Two bytes of a block, one as much less as the other is more: the second sum sees it at every distance and by every
/// difference. Powers of two come nearest to what it would not see.
#[test]
fn two_bytes_are_seen() {
    let part = Part::Bench;
    let mut image = image_of(&array(part, 10));
    let unread = Err(Unread { answer: Answer::BadBlock, block: Some(2) });
    for (distance, less) in (0..9).flat_map(|i| (0..8).map(move |j| (1 << i, 1 << j))) {
        for at in (0..ARRAY_BYTES - distance).step_by(31) {
            let mut data = [0x55; ARRAY_BYTES];
            (data[at], data[at + distance]) = (0xFF, 0x00);
            let changed = block(&mut image, 2);
            changed.copy_from_slice(&good(2, &data));
            changed[8 + at] -= less;
            changed[8 + at + distance] += less;
            assert_eq!(image::read(part, &image), unread, "{at}, {distance}, {less}");
        }
    }
}

/// What the sums do not see: a block of zeros in place 0, and changes that cancel out in both sums.
#[test]
fn unseen_damage() {
    let part = Part::Bench;
    let mut array = array(part, 11);
    array[600..603].fill(0x10);
    let mut image = image_of(&array);
    block(&mut image, 0).fill(0);
    let changed = &mut block(&mut image, 1)[8 + 600 - ARRAY_BYTES..];
    changed[..3].copy_from_slice(&[0x11, 0x0E, 0x11]);
    array[..ARRAY_BYTES].fill(0);
    array[600..603].copy_from_slice(&[0x11, 0x0E, 0x11]);
    assert!(image::read(part, &image) == Ok(array));
}

/// The calls on slices: a refused one leaves all its bytes, and the first refusal that applies is told.
#[test]
fn order_of_refusals() {
    let (array, mut image) = (vec![0x3C; 4_097], vec![0xC3; 5_120]);
    let (mut other, mut list) = (array.clone(), vec![0x99; 72]);
    for part in [7, 8, 255, 256, 258, 65_536, 1 << 31, u32::MAX] {
        assert_eq!(calls::image_write(part, &[], &mut []).bits(), 31, "part {part}");
        assert_eq!(calls::image_read(part, &image, &mut []).bits(), 31, "part {part}");
        assert_eq!(calls::image_salvage(part, &mut image, &mut []).bits(), 31, "part {part}");
    }
    for length in [0, 512, 4_096, 4_607, 4_609, 5_120] {
        assert_eq!(calls::image_write(0, &array, &mut image[..length]).bits(), 32, "{length}");
        assert_eq!(calls::image_read(0, &image[..length], &mut other).bits(), 32, "{length}");
        let (image, list) = (&mut image[..length], &mut list[1..]);
        assert_eq!(calls::image_salvage(0, image, list).bits(), 32, "{length}");
    }
    let whole = &mut image[..4_608];
    for length in [0, 4_095, 4_097] {
        assert_eq!(calls::image_write(0, &array[..length], whole).bits(), 2, "{length}");
        assert_eq!(calls::image_read(0, whole, &mut other[..length]).bits(), 2, "{length}");
    }
    for length in [0, 8, 71] {
        assert_eq!(calls::image_salvage(0, whole, &mut list[..length]).bits(), 34, "{length}");
    }
    assert_eq!(calls::image_read(0, whole, &mut other[1..]).bits(), 33);
    assert!(array == other && image == [0xC3; 5_120] && list == [0x99; 72]);
}

/// A bad block behind good ones: the array stays whole. Of a longer list only the places used are written, and a shorter
/// one is refused, although two places would do.
#[test]
fn bytes_that_stay() {
    let mut image = image_of(&array(Part::Bench, 12));
    block(&mut image, 4)[0] = 0x40;
    block(&mut image, 8)[7] ^= 0x40;
    let before = image.clone();
    let mut kept = vec![0x3C; 4_096];
    let reply = calls::image_read(0, &image, &mut kept);
    assert_eq!((reply.bits(), reply.blocks()), (33 | 4 << 16, 4));
    assert!(kept == [0x3C; 4_096] && image == before);
    for length in [72, 73, 79, 80] {
        let (mut image, mut list) = (before.clone(), vec![0x99; length]);
        let reply = calls::image_salvage(0, &mut image, &mut list);
        assert_eq!((reply.bits(), reply.blocks()), (2 << 16, 2));
        assert_eq!(list[..16], [4, 0, 0, 0, 1, 0, 0, 0, 8, 0, 0, 0, 2, 0, 0, 0]);
        assert!(list[16..].iter().all(|byte| *byte == 0x99), "{length}");
    }
    for length in [0, 16, 64, 71] {
        let mut list = vec![0x99; length];
        assert_eq!(calls::image_salvage(0, &mut image, &mut list).bits(), 34, "{length}");
        assert!(image == before && list.iter().all(|byte| *byte == 0x99), "{length}");
    }
}

#[test]
fn refusals_and_words() {
    let part = Part::M25p40;
    let array = array(part, 13);
    for length in [0, 1, part.bytes() - 1] {
        assert_eq!(image::write(part, &array[..length]), Err(Answer::ArrayLength));
    }
    let mut image = image_of(&array);
    let short = part.image_bytes() - 1;
    let unread = image::read(part, &image[..short]).unwrap_err();
    assert_eq!(unread, Unread { answer: Answer::ImageLength, block: None });
    assert_eq!(unread.to_string(), "the image's length is not the part's");
    assert_eq!(image::salvage(part, &mut image[..short]), Err(Answer::ImageLength));
    image[1_040 * 512] = 0;
    let unread: Box<dyn std::error::Error> = image::read(part, &image).unwrap_err().into();
    let words = "block 1040 of the image is bad: its number or its sums are wrong";
    assert_eq!(unread.to_string(), words);
    let lost = image::salvage(part, &mut image).unwrap();
    assert_eq!(lost[0].array_range(part), 524_160..524_288);
    assert_eq!(lost[0].reason.to_string(), "its number is wrong");
    assert_eq!(Reason::Sums.to_string(), "its sums are wrong");
    let first = Lost { block: 0, reason: Reason::Sums };
    assert_eq!(first.array_range(part), 0..504);
    let behind = Lost { block: 1_041, reason: Reason::Sums };
    assert_eq!(behind.array_range(part), 524_288..524_288, "there is no such block");
}
