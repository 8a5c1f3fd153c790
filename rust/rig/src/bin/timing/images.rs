//! Chip images written, read and salvaged by the C calls, against plain Rust of the same rule.

use std::hint::black_box;

use m25p::image::{ARRAY_BYTES, BLOCK_BYTES, PLACE_BYTES};
use m25p::{calls, Answer, Part};
use rig::rng::Rng;

use super::{middle, report, timed};

/// The bytes of a block before those of the array: its number and its sums.
const HEAD_BYTES: usize = BLOCK_BYTES - ARRAY_BYTES;

/// The head of a block in this place.
fn head(place: usize, data: &[u8]) -> [u8; HEAD_BYTES] {
    let (mut first, mut second) = (place as u16, 0_u16);
    for byte in data {
        first = first.wrapping_add(u16::from(*byte));
        second = second.wrapping_add(first);
    }
    let mut head = [0; HEAD_BYTES];
    head[..4].copy_from_slice(&(place as u32).to_le_bytes());
    head[4..6].copy_from_slice(&first.to_le_bytes());
    head[6..].copy_from_slice(&second.to_le_bytes());
    head
}

/// The reason for which a block is bad in this place, 0 if it is good.
fn reason(place: usize, block: &[u8]) -> u32 {
    let (found, data) = block.split_at(HEAD_BYTES);
    if found[..4] != (place as u32).to_le_bytes() {
        return 1;
    }
    if found == head(place, data) {
        0
    } else {
        2
    }
}

/// The plain writer.
#[inline(never)]
fn plain_write(array: &[u8], image: &mut [u8]) {
    let blocks = image.chunks_exact_mut(BLOCK_BYTES).zip(array.chunks(ARRAY_BYTES));
    for (place, (block, bytes)) in blocks.enumerate() {
        let (front, data) = block.split_at_mut(HEAD_BYTES);
        data[..bytes.len()].copy_from_slice(bytes);
        data[bytes.len()..].fill(0xFF);
        front.copy_from_slice(&head(place, data));
    }
}

/// The plain reader: whether every block is good.
#[inline(never)]
fn plain_read(image: &[u8], array: &mut [u8]) -> bool {
    let blocks = || image.chunks_exact(BLOCK_BYTES);
    let good = blocks().enumerate().all(|(place, block)| reason(place, block) == 0);
    if good {
        for (block, bytes) in blocks().zip(array.chunks_mut(ARRAY_BYTES)) {
            bytes.copy_from_slice(&block[HEAD_BYTES..][..bytes.len()]);
        }
    }
    good
}

/// The plain salvage: how many blocks it has changed.
#[inline(never)]
fn plain_salvage(image: &mut [u8], list: &mut [u8]) -> usize {
    let mut changed = 0;
    for (place, block) in image.chunks_exact_mut(BLOCK_BYTES).enumerate() {
        let reason = reason(place, block);
        if reason == 0 {
            continue;
        }
        let (front, data) = block.split_at_mut(HEAD_BYTES);
        data.fill(0xFF);
        front.copy_from_slice(&head(place, data));
        let entry = &mut list[changed * PLACE_BYTES..][..PLACE_BYTES];
        entry[..4].copy_from_slice(&(place as u32).to_le_bytes());
        entry[4..].copy_from_slice(&reason.to_le_bytes());
        changed += 1;
    }
    changed
}

/// What the calls are lent.
#[derive(Clone, PartialEq)]
struct Lent {
    array: Vec<u8>,
    image: Vec<u8>,
    list: Vec<u8>,
}

impl Lent {
    /// An array without a pattern, its image, and a list.
    fn new(part: Part) -> Lent {
        let array = Rng::new(4).bytes(part.bytes());
        let mut image = vec![0; part.image_bytes()];
        plain_write(&array, &mut image);
        Lent { array, image, list: vec![9; part.blocks() * PLACE_BYTES] }
    }
}

/// A call and plain Rust on buffers of their own, each written just before: the middle times of both, which have to
/// leave the same.
fn time(what: &str, start: &Lent, call: impl Fn(&mut Lent), plain: impl Fn(&mut Lent)) {
    let times = middle(|| {
        let mut one = start.clone();
        let calls = timed(|| call(black_box(&mut one)));
        let mut other = start.clone();
        let plain = timed(|| plain(black_box(&mut other)));
        assert!(one == other, "{what}: the two do not leave the same");
        (calls, plain)
    });
    report(what, 1, times);
}

fn time_salvage(what: &str, part: Part, start: &Lent, bad: usize) {
    let call = |lent: &mut Lent| {
        let reply = calls::image_salvage(part.number(), &mut lent.image, &mut lent.list);
        assert_eq!((reply.answer(), reply.blocks()), (Answer::Executed, bad));
    };
    let plain = |lent: &mut Lent| assert_eq!(plain_salvage(&mut lent.image, &mut lent.list), bad);
    time(&format!("{part} salvage, {what}"), start, call, plain);
}

pub fn time_images(part: Part) {
    let number = part.number();
    let mut lent = Lent::new(part);
    let image = std::mem::replace(&mut lent.image, vec![0x5A; part.image_bytes()]);
    let write = |lent: &mut Lent| {
        let reply = calls::image_write(number, &lent.array, &mut lent.image);
        assert_eq!(reply.answer(), Answer::Executed);
    };
    let plain = |lent: &mut Lent| plain_write(&lent.array, &mut lent.image);
    time(&format!("{part} image written"), &lent, write, plain);
    lent.image = image;
    lent.array.fill(0x5A);
    let read = |lent: &mut Lent| {
        let reply = calls::image_read(number, &lent.image, &mut lent.array);
        assert_eq!(reply.answer(), Answer::Executed);
    };
    let plain = |lent: &mut Lent| assert!(plain_read(&lent.image, &mut lent.array));
    time(&format!("{part} image read"), &lent, read, plain);
    time_salvage("all good", part, &lent, 0);
    lent.image.iter_mut().skip(HEAD_BYTES).step_by(BLOCK_BYTES).for_each(|byte| *byte ^= 1);
    time_salvage("all bad", part, &lent, part.blocks());
}
