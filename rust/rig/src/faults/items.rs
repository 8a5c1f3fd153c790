//! Deliberate faults of a batch's bytes: how items are read.

use crate::batch_model::*;
use crate::model::Paper;

/// An item that is bad in this way ends the batch, as if it were not there.
pub struct EndsAt(pub Bad);

impl BatchModel for EndsAt {
    fn day(&self, bytes: &[u8]) -> Day {
        let mut day = Paper.day(bytes);
        day.bad = day.bad.filter(|(_, bad)| *bad != self.0);
        day
    }
}

/// An item is read otherwise.
pub struct Reads(pub fn(&[u8]) -> Read);

impl BatchModel for Reads {
    fn item(&self, bytes: &[u8]) -> Read {
        self.0(bytes)
    }
}

/// A transaction whose bytes end too early is one of the bytes that are there.
pub fn cut_body_taken(bytes: &[u8]) -> Read {
    match Paper.item(bytes) {
        Err(Bad::Body) => Ok((Paper.meant(bytes[2], &bytes[HEAD..])?, bytes.len())),
        read => read,
    }
}

/// A length of the most bytes is refused.
pub fn longest_refused(bytes: &[u8]) -> Read {
    Paper.item(bytes).and_then(|read| match read.1 - HEAD {
        MOST_BYTES => Err(Bad::Body),
        _ => Ok(read),
    })
}

/// A wait is of length 4 by the low byte alone; its ticks are the first four bytes.
pub fn wait_by_its_low_byte(bytes: &[u8]) -> Read {
    match Paper.item(bytes) {
        Err(Bad::Wait) if usize::from(bytes[0]) == WAIT_BYTES => {
            let item = Item::Wait { ticks: Paper.ticks(&bytes[HEAD..][..WAIT_BYTES]) };
            Ok((item, HEAD + Paper.length(bytes[0], bytes[1])))
        }
        read => read,
    }
}

/// A wait has four bytes whatever its length says.
pub fn wait_without_length(bytes: &[u8]) -> Read {
    match Paper.item(bytes) {
        Err(Bad::Wait) if bytes.len() >= HEAD + WAIT_BYTES => {
            let item = Item::Wait { ticks: Paper.ticks(&bytes[HEAD..][..WAIT_BYTES]) };
            Ok((item, HEAD + WAIT_BYTES))
        }
        read => read,
    }
}

/// The two bytes of a length are read otherwise.
pub struct Lengths(pub fn(u8, u8) -> usize);

impl BatchModel for Lengths {
    fn length(&self, first: u8, second: u8) -> usize {
        self.0(first, second)
    }
}

/// The high byte comes first.
pub fn high_byte_first(first: u8, second: u8) -> usize {
    Paper.length(second, first)
}

/// The second byte is not looked at.
pub fn low_byte_alone(first: u8, _: u8) -> usize {
    usize::from(first)
}

/// The highest bit is not looked at.
pub fn fifteen_bits(first: u8, second: u8) -> usize {
    Paper.length(first, second & 0x7F)
}

/// A flag byte means something else.
pub struct Means(pub fn(u8, &[u8]) -> Result<Item, Bad>);

impl BatchModel for Means {
    fn meant(&self, flag: u8, body: &[u8]) -> Result<Item, Bad> {
        self.0(flag, body)
    }
}

/// 17 is a wait, too.
pub fn seventeen_waits(flag: u8, body: &[u8]) -> Result<Item, Bad> {
    Paper.meant(if flag == 17 { WAIT } else { flag }, body)
}

/// Every flag byte with bit 4 set is a wait.
pub fn bit_four_waits(flag: u8, body: &[u8]) -> Result<Item, Bad> {
    Paper.meant(if flag & WAIT == 0 { flag } else { WAIT }, body)
}

/// Bits 5 to 7 are not looked at.
pub fn high_bits_not_looked_at(flag: u8, body: &[u8]) -> Result<Item, Bad> {
    Paper.meant(flag & 0x1F, body)
}

/// 16 with another length than 4 is a transaction, with W low.
pub fn long_wait_is_sent(flag: u8, body: &[u8]) -> Result<Item, Bad> {
    let sent = flag == WAIT && body.len() != WAIT_BYTES;
    Paper.meant(if sent { 0 } else { flag }, body)
}

/// A wait may be longer than 4.
pub fn longer_wait(flag: u8, body: &[u8]) -> Result<Item, Bad> {
    let longer = flag == WAIT && body.len() > WAIT_BYTES;
    Paper.meant(flag, if longer { &body[..WAIT_BYTES] } else { body })
}

/// A wait may be shorter than 4.
pub fn shorter_wait(flag: u8, body: &[u8]) -> Result<Item, Bad> {
    if flag == WAIT && body.len() < WAIT_BYTES {
        return Ok(Item::Wait { ticks: Paper.ticks(body) });
    }
    Paper.meant(flag, body)
}

/// Further pulses and W are in other bits of the flag byte.
pub struct Bits(pub fn(u8) -> (u8, u8));

impl BatchModel for Bits {
    fn pulses_and_w(&self, flag: u8) -> (u32, u32) {
        let (pulses, w) = self.0(flag);
        (u32::from(pulses), u32::from(w))
    }
}

/// W is in bit 3, further pulses are in bits 0 to 2.
pub fn w_in_bit_three(flag: u8) -> (u8, u8) {
    (flag & 7, flag >> 3)
}

/// W is low where its bit is 1.
pub fn w_turned_over(flag: u8) -> (u8, u8) {
    (flag >> 1, !flag & 1)
}

/// W is high, whatever its bit is.
pub fn w_high(flag: u8) -> (u8, u8) {
    (flag >> 1, 1)
}

/// Further pulses are in bits 1 and 2 alone.
pub fn pulses_in_two_bits(flag: u8) -> (u8, u8) {
    (flag >> 1 & 3, flag & 1)
}

/// Further pulses are in bits 0 to 2.
pub fn pulses_from_bit_zero(flag: u8) -> (u8, u8) {
    (flag & 7, flag & 1)
}

/// The ticks of a wait are read otherwise.
pub struct Ticks(pub fn(&[u8]) -> u32);

impl BatchModel for Ticks {
    fn ticks(&self, body: &[u8]) -> u32 {
        self.0(body)
    }
}

/// The highest byte comes first.
pub fn highest_byte_first(body: &[u8]) -> u32 {
    Paper.ticks(body).swap_bytes()
}

/// Two of the bytes are not looked at.
pub fn two_bytes_alone(body: &[u8]) -> u32 {
    Paper.ticks(&body[..2])
}

/// The highest byte is not looked at.
pub fn three_bytes_alone(body: &[u8]) -> u32 {
    Paper.ticks(&body[..3])
}
