//! Deliberate faults of images: what salvage makes of a bad block, and how it lists them.

use crate::image_model::*;
use crate::model::Paper;

/// A bad block becomes something else.
pub struct Salvages(pub fn(usize, &[u8], Reason) -> Vec<u8>);

impl ImageModel for Salvages {
    fn salvaged(&self, place: usize, block: &[u8], reason: Reason) -> Vec<u8> {
        self.0(place, block, reason)
    }
}

/// The bytes of a block stay where its sums are right, and its number is put right.
pub fn number_put_right(place: usize, block: &[u8], reason: Reason) -> Vec<u8> {
    let kept = reason == Reason::Number && !Paper.sums_wrong(place, block);
    if kept {
        return Paper.block(place, &block[HEAD..]);
    }
    Paper.salvaged(place, block, reason)
}

/// The bytes stay where the number is right, and the sums are put right.
pub fn sums_put_right(place: usize, block: &[u8], reason: Reason) -> Vec<u8> {
    match reason {
        Reason::Number => Paper.salvaged(place, block, reason),
        Reason::Sums => Paper.block(place, &block[HEAD..]),
    }
}

/// Zeros take the place of the bytes.
pub fn zeros(place: usize, _: &[u8], _: Reason) -> Vec<u8> {
    Paper.block(place, &[0x00; DATA])
}

/// The whole block becomes FF, its head too.
pub fn erased_throughout(_: usize, _: &[u8], _: Reason) -> Vec<u8> {
    vec![0xFF; BLOCK]
}

/// A bad block is listed, and stays as it is.
pub fn left_alone(_: usize, block: &[u8], _: Reason) -> Vec<u8> {
    block.to_vec()
}

/// These bytes of the head stay.
fn head_kept(place: usize, block: &[u8], kept: std::ops::Range<usize>) -> Vec<u8> {
    let mut salvaged = Paper.salvaged(place, block, Reason::Number);
    salvaged[kept.clone()].copy_from_slice(&block[kept]);
    salvaged
}

pub fn number_stays(place: usize, block: &[u8], _: Reason) -> Vec<u8> {
    head_kept(place, block, 0..4)
}

pub fn sums_stay(place: usize, block: &[u8], _: Reason) -> Vec<u8> {
    head_kept(place, block, 4..HEAD)
}

/// The last byte of a block stays.
pub fn last_byte_stays(place: usize, block: &[u8], _: Reason) -> Vec<u8> {
    head_kept(place, block, BLOCK - 1..BLOCK)
}

/// What fills up the bench part's last block stays, with the sums that go with it.
pub fn filler_stays(place: usize, block: &[u8], reason: Reason) -> Vec<u8> {
    if place != 8 {
        return Paper.salvaged(place, block, reason);
    }
    Paper.block(place, &[&[0xFF; 64], &block[HEAD + 64..]].concat())
}

/// The head is that of block 0.
pub fn head_of_block_0(_: usize, block: &[u8], reason: Reason) -> Vec<u8> {
    Paper.salvaged(0, block, reason)
}

/// Other blocks are found bad, or in another order.
pub struct Finds(pub fn(Vec<Lost>) -> Vec<Lost>);

impl ImageModel for Finds {
    fn lost(&self, image: &[u8]) -> Vec<Lost> {
        self.0(Paper.lost(image))
    }
}

/// What stands behind the first bad block is not looked at.
pub fn first_alone(mut lost: Vec<Lost>) -> Vec<Lost> {
    lost.truncate(1);
    lost
}

/// The last bad block is not found, where there are several.
pub fn all_but_the_last(mut lost: Vec<Lost>) -> Vec<Lost> {
    lost.truncate(lost.len().max(2) - 1);
    lost
}

/// The last one comes first.
pub fn last_first(mut lost: Vec<Lost>) -> Vec<Lost> {
    lost.reverse();
    lost
}

/// Those with a wrong number come first.
pub fn numbers_first(mut lost: Vec<Lost>) -> Vec<Lost> {
    lost.sort_by_key(|one| Paper.reason_number(one.1));
    lost
}

/// Of neighbours the first alone is found.
pub fn one_of_neighbours(mut lost: Vec<Lost>) -> Vec<Lost> {
    lost.dedup_by(|next, before| next.0 == before.0 + 1);
    lost
}

/// A reason has another number.
pub struct Reasons(pub fn(Reason) -> u32);

impl ImageModel for Reasons {
    fn reason_number(&self, reason: Reason) -> u32 {
        self.0(reason)
    }
}

/// A place of the list is written otherwise.
pub struct Enters(pub fn(u32, u32) -> [u32; 2]);

impl ImageModel for Enters {
    fn entry(&self, number: u32, reason: Reason) -> [u8; LIST_PLACE] {
        let [first, second] = self.0(number, Paper.reason_number(reason)).map(u32::to_le_bytes);
        let mut entry = [0; LIST_PLACE];
        put(&mut entry, &first);
        put(&mut entry[4..], &second);
        entry
    }
}

/// The list is written otherwise.
pub struct Lists(pub fn(&mut [u8], &[Lost]));

impl ImageModel for Lists {
    fn list(&self, list: &mut [u8], lost: &[Lost]) {
        self.0(list, lost);
    }
}

/// Each bad block has the place of its number, and the others have gaps.
pub fn with_gaps(list: &mut [u8], lost: &[Lost]) {
    for one in lost {
        Paper.list(&mut list[one.0 * LIST_PLACE..], &[*one]);
    }
}

/// The last places are used.
pub fn at_the_end(list: &mut [u8], lost: &[Lost]) {
    let unused = list.len() / LIST_PLACE - lost.len();
    Paper.list(&mut list[unused * LIST_PLACE..], lost);
}

/// All are written to the first place.
pub fn over_each_other(list: &mut [u8], lost: &[Lost]) {
    lost.iter().for_each(|one| Paper.list(list, &[*one]));
}

/// The first place stays free.
pub fn from_the_second_place(list: &mut [u8], lost: &[Lost]) {
    Paper.list(&mut list[LIST_PLACE..], lost);
}

/// Nothing is listed.
pub fn not_at_all(_: &mut [u8], _: &[Lost]) {}

/// The places behind the last used one are cleared.
pub fn others_cleared(list: &mut [u8], lost: &[Lost]) {
    let whole = list.len() / LIST_PLACE * LIST_PLACE;
    list[..whole].fill(0);
    Paper.list(list, lost);
}

/// The odd bytes at the end are cleared.
pub fn odd_bytes_cleared(list: &mut [u8], lost: &[Lost]) {
    let whole = list.len() / LIST_PLACE * LIST_PLACE;
    list[whole..].fill(0);
    Paper.list(list, lost);
}

/// A place of FF ends the list, where there is one more.
pub fn ended(list: &mut [u8], lost: &[Lost]) {
    Paper.list(list, lost);
    put(&mut list[lost.len() * LIST_PLACE..], &[0xFF; LIST_PLACE]);
}

/// These bytes of each place stay.
fn kept(list: &mut [u8], lost: &[Lost], kept: std::ops::Range<usize>) {
    let before = list.to_vec();
    Paper.list(list, lost);
    for at in (0..lost.len()).map(|place| place * LIST_PLACE) {
        put(&mut list[at..][kept.clone()], &before[at..][kept.clone()]);
    }
}

/// The number has two bytes.
pub fn number_in_two_bytes(list: &mut [u8], lost: &[Lost]) {
    kept(list, lost, 2..4);
}

/// The reason has one byte.
pub fn reason_in_a_byte(list: &mut [u8], lost: &[Lost]) {
    kept(list, lost, 5..LIST_PLACE);
}

/// Salvage as on paper, and then something more: with the image as it was, the image, and the list.
pub struct Afterwards(pub fn(&[u8], &mut [u8], &mut [u8]));

impl ImageModel for Afterwards {
    fn salvage(&self, part: u32, image: &mut [u8], list: &mut [u8]) -> u64 {
        let before = image.to_vec();
        let word = Paper.salvage(part, image, list);
        if word as u8 == 0 {
            self.0(&before, image, list);
        }
        word
    }
}

/// A good last block is written anew, filled up with FF; of the bench part.
pub fn good_rewritten(_: &[u8], image: &mut [u8], _: &mut [u8]) {
    let array = Paper.array(image);
    if array.len() == 9 * DATA {
        put(image, &Paper.image(&array[..4_096]));
    }
}

/// All blocks are FF where one was bad.
pub fn all_erased(before: &[u8], image: &mut [u8], _: &mut [u8]) {
    if before != image {
        let erased = vec![0xFF; image.len() / BLOCK * DATA];
        put(image, &Paper.image(&erased));
    }
}

/// The list has the numbers that stood in the bad blocks.
pub fn numbers_that_stood(before: &[u8], _: &mut [u8], list: &mut [u8]) {
    for (entry, (place, _)) in list.chunks_exact_mut(LIST_PLACE).zip(Paper.lost(before)) {
        put(&mut entry[..4], &before[place * BLOCK..]);
    }
}

/// A block with number and sums wrong has both reasons.
pub fn both_reasons(before: &[u8], _: &mut [u8], list: &mut [u8]) {
    for (entry, (place, _)) in list.chunks_exact_mut(LIST_PLACE).zip(Paper.lost(before)) {
        let block = &before[place * BLOCK..][..BLOCK];
        if Paper.number_wrong(place, block) && Paper.sums_wrong(place, block) {
            entry[4] = 3;
        }
    }
}
