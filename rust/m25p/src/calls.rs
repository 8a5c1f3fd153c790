//! The C calls on slices of any length: the same arguments in the same order, and the same 64 bits.
//!
//! [`Chip`](crate::Chip) is what most programs want, [`Bus`](crate::Bus) for several chips on one bus, and
//! [`image`](crate::image) for images of a chip's contents. These are for records, arrays and images that are kept
//! elsewhere, and for those that may be wrong: whatever is passed is checked and answered.

use crate::library;
use crate::{Durations, Reply};

/// Makes record and array a part as it comes from the factory. Answers 8, 1, 2, 7 in this order.
pub fn deliver(record: &mut [u8], part: u32, array: &mut [u8], durations: Durations) -> Reply {
    Reply::new(library::deliver(record, part, array, durations.into()))
}

/// One transaction: `sent` is shifted in, then come `pulses` further clock pulses, and W is low for 0 as
/// Chip Select rises, else high. Byte i of the response is what the chip drove during byte i, FF where it
/// drove nothing; bytes behind what is sent stay. A page program tells the [bits missing](Reply::missing).
/// The array is read, and never changed: a cycle that starts acts on the array that is lent at its end.
/// Answers 8, 6, 2, 3, 4, 5, then those of the chip.
pub fn transact(
    record: &mut [u8],
    array: &mut [u8],
    sent: &[u8],
    pulses: u32,
    w: u32,
    response: &mut [u8],
) -> Reply {
    Reply::new(library::transact(record, array, sent, pulses, w, response))
}

/// Lets ticks pass; with a cycle's last tick array or settings change. Answers 8, 6, 2.
pub fn wait(record: &mut [u8], array: &mut [u8], ticks: u32) -> Reply {
    Reply::new(library::wait(record, array, ticks))
}

/// Power off and on; a running cycle is completed, and lock registers are reset. Answers 8, 6, 2.
pub fn power_up(record: &mut [u8], array: &mut [u8]) -> Reply {
    Reply::new(library::power_up(record, array))
}

/// Power is lost and comes back; a running cycle is cut, and lock registers are reset. Of a program, a write or an
/// erase the mask says what was not reached, one byte of it for each byte of a page; a status write is complete unless
/// `yes` is 0. Answers 8, 6, 2, 41.
pub fn loss(record: &mut [u8], array: &mut [u8], mask: &[u8], yes: u32) -> Reply {
    Reply::new(library::loss(record, array, mask, yes))
}

/// A run of raw pins, one byte for each sample (see [`pins`](crate::pins)): the transactions in it are
/// carried out in order, and the output gets one byte for each sample. The bits missing are the sum over the
/// transactions. Answers 8, 6, 2, 21, 22, 23.
pub fn pins(record: &mut [u8], array: &mut [u8], samples: &[u8], output: &mut [u8]) -> Reply {
    Reply::new(library::pins(record, array, samples, output))
}

/// A batch of items (see [`batch`](crate::batch)): transactions and waits are carried out in order, each as by a
/// call of its own. The responses follow each other, the answers are one byte for each item, waits too, and
/// the first eight bytes of `missing` are set to the sum of the bits missing, modulo 2 to the power 64 and
/// little-endian; what lies behind stays. As many response bytes as the items have, and a third of that as
/// answers, always suffice. Answers 8, 6, 2, 9, 10.
pub fn batch(
    record: &mut [u8],
    array: &mut [u8],
    items: &[u8],
    responses: &mut [u8],
    answers: &mut [u8],
    missing: &mut [u8],
) -> Reply {
    Reply::new(library::batch(record, array, items, responses, answers, missing))
}

/// A batch that is counted, too (see [`report`](crate::report)): all is done as by [`batch`], and what the transactions
/// did is added to the first [`Totals::BYTES`](crate::Totals::BYTES) bytes of `totals`, whose numbers are little-endian;
/// what lies behind stays. There is no `missing` here. Answers 8, 6, 2, 9, 10, 71.
pub fn report(
    record: &mut [u8],
    array: &mut [u8],
    items: &[u8],
    responses: &mut [u8],
    answers: &mut [u8],
    totals: &mut [u8],
) -> Reply {
    Reply::new(library::report(record, array, items, responses, answers, totals))
}

/// Writes the array as an image of the part with this number (see [`image`](crate::image)), of
/// [`Part::image_bytes`](crate::Part::image_bytes) bytes. Answers 31, 32, 2.
pub fn image_write(part: u32, array: &[u8], image: &mut [u8]) -> Reply {
    Reply::new(library::image_write(part, array, image))
}

/// Reads an image back into an array, if all its blocks are good. [`Reply::blocks`] is the place of the first bad one,
/// where one is; the array stays as it is then. Answers 31, 32, 2, 33.
pub fn image_read(part: u32, image: &[u8], array: &mut [u8]) -> Reply {
    Reply::new(library::image_read(part, image, array))
}

/// Makes every bad block of an image a good one of FF, and leaves the good ones as they are. [`Reply::blocks`] is how
/// many were bad. The list gets for each of them, in order, its place and the reason (1 its number, 2 its sums), 32
/// bits little-endian each; what lies behind stays. It has to have a place of eight bytes for every block of the image,
/// however few are bad. Answers 31, 32, 34.
pub fn image_salvage(part: u32, image: &mut [u8], list: &mut [u8]) -> Reply {
    Reply::new(library::image_salvage(part, image, list))
}

/// One transaction on a bus of up to eight chips, as by [`transact`] on the chosen one alone. The row is their packed
/// records one after another, the array their bytes in the same order, and `chip` counts from 0. Only the chosen
/// record and the response can change. Answers 8, 51, 52, 6, 53, 3, 4, 5, then those of the chip.
pub fn bus_transact(
    row: &mut [u8],
    array: &mut [u8],
    chip: u32,
    sent: &[u8],
    pulses: u32,
    w: u32,
    response: &mut [u8],
) -> Reply {
    Reply::new(library::bus_transact(row, array, chip, sent, pulses, w, response))
}

/// Lets ticks pass for every chip of a row, each as by [`wait`] on its own record and bytes. Answers 8, 51, 6, 53.
pub fn bus_wait(row: &mut [u8], array: &mut [u8], ticks: u32) -> Reply {
    Reply::new(library::bus_wait(row, array, ticks))
}
