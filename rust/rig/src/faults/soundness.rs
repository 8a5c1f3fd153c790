//! Deliberate faults of unpacking: bytes that are taken for a sound record, and sound records that are not taken.

use super::cycles;
use crate::model::*;

/// Bytes that are not sound are put right and taken.
pub struct PutRight(pub fn(&mut [u8]));

impl Model for PutRight {
    fn unpack(&self, record: &[u8]) -> Result<Record, u8> {
        let unpacked = Paper.unpack(record);
        if unpacked == Err(6) {
            let mut bytes = record.to_vec();
            self.0(&mut bytes);
            return Paper.unpack(&bytes);
        }
        unpacked
    }
}

/// The three zero bytes are not looked at.
pub fn zero_bytes(bytes: &mut [u8]) {
    bytes[5..8].fill(0);
}

/// The latch of a busy record is not looked at.
pub fn busy_latch(bytes: &mut [u8]) {
    bytes[3] ^= 1;
}

/// Outside a cycle the bytes of one are not looked at.
pub fn cycle_outside_one(bytes: &mut [u8]) {
    if bytes[4] != 1 {
        bytes[CYCLE_AT..LOCKS_AT].fill(0);
    }
}

/// The new settings are not looked at where they are not used.
pub fn unused_settings(bytes: &mut [u8]) {
    bytes[CYCLE_AT + 1..CYCLE_AT + 3].fill(0);
}

/// The zero byte of a cycle is not looked at.
pub fn zero_byte_of_a_cycle(bytes: &mut [u8]) {
    bytes[CYCLE_AT + 3] = 0;
}

/// The address is not looked at where it is not used.
pub fn unused_address(bytes: &mut [u8]) {
    bytes[CYCLE_AT + 4..CYCLE_AT + 8].fill(0);
}

/// The slots are not looked at where they are not used.
pub fn unused_slots(bytes: &mut [u8]) {
    bytes[CYCLE_AT..][SLOTS_AT..NAMED_AT].fill(0);
}

/// The number of bytes named is not looked at where it is not used.
pub fn unused_named(bytes: &mut [u8]) {
    bytes[CYCLE_AT..LOCKS_AT][NAMED_AT..].fill(0);
}

/// A page write that names none, or more than a page, names it all.
pub fn named_beyond(bytes: &mut [u8]) {
    bytes[CYCLE_AT..LOCKS_AT][NAMED_AT..].copy_from_slice(&(PAGE as u32).to_le_bytes());
}

/// Bits 7 to 2 of a lock register are not looked at.
pub fn lock_bits_above(bytes: &mut [u8]) {
    bytes[LOCKS_AT..].iter_mut().for_each(|lock| *lock &= LOCK_DOWN | WRITE_LOCK);
}

/// Lock registers are not looked at on a part that has none.
pub fn locks_elsewhere(bytes: &mut [u8]) {
    if bytes[0] != 6 {
        bytes[LOCKS_AT..].fill(0);
    }
}

/// The cycles of the M25PE40 are taken on every part, as the program and the erase that are next to them.
pub fn kinds_elsewhere(bytes: &mut [u8]) {
    if let (0..=5, kind @ 5..=7) = (bytes[0], bytes[CYCLE_AT]) {
        bytes[CYCLE_AT] = if kind == 5 { 1 } else { 2 };
        unused_named(bytes);
    }
}

/// An address beyond the part is reduced.
pub fn address_beyond(bytes: &mut [u8]) {
    let Some(part) = PARTS.get(bytes[0] as usize) else { return };
    let at = CYCLE_AT + 4..CYCLE_AT + 8;
    let address = u32::from_le_bytes(bytes[at.clone()].try_into().expect("four bytes"));
    bytes[at].copy_from_slice(&(address % part.bytes as u32).to_le_bytes());
}

/// A new BP above the highest is cut to the part's bits.
pub fn new_bp_above(bytes: &mut [u8]) {
    let Some(part) = PARTS.get(bytes[0] as usize) else { return };
    bytes[CYCLE_AT + 1] &= part.highest_bp;
}

/// A new SRWD other than 0 is set.
pub fn new_srwd_above_one(bytes: &mut [u8]) {
    bytes[CYCLE_AT + 2] = u8::from(bytes[CYCLE_AT + 2] != 0);
}

/// A kind above 7 is a bulk erase.
pub fn kind_above_seven(bytes: &mut [u8]) {
    if bytes[CYCLE_AT] > 7 {
        bytes[CYCLE_AT] = 3;
    }
}

/// A busy record of no kind is in a bulk erase.
pub fn busy_of_no_kind(bytes: &mut [u8]) {
    if bytes[4] == 1 && bytes[CYCLE_AT] == 0 {
        bytes[CYCLE_AT] = 3;
    }
}

/// Sound records of this kind are not taken.
pub struct NotTaken(pub fn(&Record) -> bool);

impl Model for NotTaken {
    fn unpack(&self, record: &[u8]) -> Result<Record, u8> {
        match Paper.unpack(record)? {
            r if self.0(&r) => Err(6),
            r => Ok(r),
        }
    }
}

/// With more ticks left than the cycle takes.
pub fn longer_than_its_duration(r: &Record) -> bool {
    matches!(r.mode, Mode::Busy(left, cycle) if left > r.duration(&cycle))
}

/// In a cycle that would not be executed now, as its place is protected.
pub fn in_a_protected_place(r: &Record) -> bool {
    r.cycle().is_some_and(|cycle| cycles::in_a_protected_place(r, &cycle))
}

/// In a page write with a slot that is not named and not FF.
pub fn unnamed_slots(r: &Record) -> bool {
    let Some(Cycle::PageWrite { address, slots, named }) = r.cycle() else { return false };
    (0..PAGE).any(|slot| !Paper.names(address, named, slot) && slots[slot] != 0xFF)
}

/// In deep power-down without a signature.
pub fn deep_unsigned(r: &Record) -> bool {
    r.mode == Mode::Deep && r.figures().signature.is_none()
}

/// With a register that is locked down alone.
pub fn lock_down_alone(r: &Record) -> bool {
    r.locks.contains(&LOCK_DOWN)
}
