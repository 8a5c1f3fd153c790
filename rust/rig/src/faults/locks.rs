//! Deliberate faults of the lock registers, and of the codes that the M25PE40 has by itself or in a form of its own.

use crate::model::*;

/// 17 is given by another rule.
pub struct Stops(pub fn(&Record, Transaction) -> bool);

impl Model for Stops {
    fn protected(&self, r: &Record, t: Transaction) -> bool {
        self.0(r, t)
    }
}

/// The place of a transaction that has one.
fn place(r: &Record, t: Transaction) -> usize {
    address(r.figures(), t.sent)
}

/// A bulk erase asks for BP alone.
pub fn bulk_erase_by_bp_alone(r: &Record, t: Transaction) -> bool {
    match t.sent[0] {
        BE => r.bp > 0,
        _ => Paper.protected(r, t),
    }
}

/// A bulk erase is stopped only where all sectors are locked.
pub fn bulk_erase_by_all_locks(r: &Record, t: Transaction) -> bool {
    match t.sent[0] {
        BE => r.bp > 0 || r.locks.iter().all(|lock| lock & WRITE_LOCK != 0),
        _ => Paper.protected(r, t),
    }
}

/// Lock-down alone stops a program.
pub fn program_by_lock_down(r: &Record, t: Transaction) -> bool {
    Paper.protected(r, t) || t.sent[0] == PP && r.lock(place(r, t)) != 0
}

/// Lock-down alone stops a bulk erase.
pub fn bulk_erase_by_lock_down(r: &Record, t: Transaction) -> bool {
    Paper.protected(r, t) || t.sent[0] == BE && r.locks != [0; LOCKS]
}

/// BP does not stop a page write.
pub fn page_write_by_lock_alone(r: &Record, t: Transaction) -> bool {
    match t.sent[0] {
        PW => r.lock(place(r, t)) & WRITE_LOCK != 0,
        _ => Paper.protected(r, t),
    }
}

/// A protected sector's lock register is not written.
pub fn lock_write_by_protection(r: &Record, t: Transaction) -> bool {
    Paper.protected(r, t) || t.sent[0] == WRLR && r.protects(place(r, t))
}

/// A lock is that of the sector behind.
pub fn lock_of_the_next(r: &Record, t: Transaction) -> bool {
    match t.sent[0] {
        PP | PW | PE | SSE | SE => {
            let next = (place(r, t) + r.figures().sector_bytes) % r.figures().bytes;
            r.unlocked().protects(place(r, t)) || r.lock(next) & WRITE_LOCK != 0
        }
        _ => Paper.protected(r, t),
    }
}

/// The write lock does not stop this instruction.
pub struct NotStopped(pub u8);

impl Model for NotStopped {
    fn protected(&self, r: &Record, t: Transaction) -> bool {
        let r = if t.sent[0] == self.0 { r.unlocked() } else { *r };
        Paper.protected(&r, t)
    }
}

/// 19 is given by another rule.
pub struct Frozen(pub fn(&Record, &[u8]) -> bool);

impl Model for Frozen {
    fn locked_down(&self, r: &Record, sent: &[u8]) -> bool {
        self.0(r, sent)
    }
}

/// Nothing freezes a lock register.
pub fn never(_: &Record, _: &[u8]) -> bool {
    false
}

/// A frozen register takes the value that it has.
pub fn unless_equal(r: &Record, sent: &[u8]) -> bool {
    Paper.locked_down(r, sent) && r.lock(address(r.figures(), sent)) != sent[4] & 3
}

/// A frozen register can be locked, but not opened.
pub fn unless_stricter(r: &Record, sent: &[u8]) -> bool {
    Paper.locked_down(r, sent) && sent[4] & 3 != LOCK_DOWN | WRITE_LOCK
}

/// One frozen register freezes all.
pub fn by_any(r: &Record, _: &[u8]) -> bool {
    r.locks.iter().any(|lock| lock & LOCK_DOWN != 0)
}

/// The write lock freezes the register, too.
pub fn by_write_lock(r: &Record, sent: &[u8]) -> bool {
    r.lock(address(r.figures(), sent)) != 0
}

/// SRWD and W low freeze the lock registers as they do the status register.
pub struct FrozenByW;

impl Model for FrozenByW {
    fn applies(&self, number: u8, r: &Record, t: Transaction) -> bool {
        let frozen = number == 18 && t.sent.first() == Some(&WRLR) && Paper.frozen(r, t.w);
        frozen || Paper.applies(number, r, t)
    }
}

/// A lock register is written by another rule: from the record before, and the sector and the byte.
pub struct Writes(pub fn(&mut Record, usize, u8));

impl Model for Writes {
    fn write_lock(&self, r: &mut Record, address: usize, byte: u8) {
        self.0(r, address / r.figures().sector_bytes, byte);
    }
}

/// The latch is kept.
pub fn keeping_the_latch(r: &mut Record, sector: usize, byte: u8) {
    r.locks[sector] = byte & 3;
}

/// All registers are written.
pub fn all(r: &mut Record, _: usize, byte: u8) {
    *r = Record { locks: [byte & 3; LOCKS], latch: false, ..*r };
}

/// Bits are set, and never reset.
pub fn setting(r: &mut Record, sector: usize, byte: u8) {
    r.locks[sector] |= byte & 3;
    r.latch = false;
}

/// The two bits are exchanged.
pub fn exchanged(r: &mut Record, sector: usize, byte: u8) {
    r.locks[sector] = byte >> 1 & 1 | (byte & 1) << 1;
    r.latch = false;
}

/// A byte with bits 7 to 2 is not taken.
pub fn clean_alone(r: &mut Record, sector: usize, byte: u8) {
    if byte <= 3 {
        r.locks[sector] = byte;
    }
    r.latch = false;
}

/// It takes the time of a status write.
pub fn in_a_cycle(r: &mut Record, sector: usize, byte: u8) {
    r.locks[sector] = byte & 3;
    *r = r.busy(r.write_status, Cycle::Settings { bp: r.bp, srwd: r.srwd });
}

/// This code resets the lock registers.
pub struct Unlocks(pub u8);

impl Model for Unlocks {
    fn change(&self, r: &mut Record, sent: &[u8]) {
        Paper.change(r, sent);
        if sent[0] == self.0 {
            *r = r.unlocked();
        }
    }
}

/// A cycle's end resets the lock registers.
pub struct CycleUnlocks;

impl Model for CycleUnlocks {
    fn complete(&self, r: &mut Record, array: &mut [u8], cycle: &Cycle) {
        Paper.complete(r, array, cycle);
        *r = r.unlocked();
    }
}

/// Power-up keeps the lock registers, in a cycle or out of one.
pub struct PowerUpKeepsLocks {
    pub in_a_cycle: bool,
}

impl Model for PowerUpKeepsLocks {
    fn power_up(&self, record: &mut [u8], array: &mut [u8]) -> Outcome {
        let before = Paper.unpack(record);
        let outcome = Paper.power_up(record, array);
        if let (0, Ok(before)) = (outcome.answer, before) {
            if before.cycle().is_some() == self.in_a_cycle {
                record[LOCKS_AT..].copy_from_slice(&before.locks);
            }
        }
        outcome
    }
}

/// Something else is driven.
pub struct Drives(pub fn(&Record, &[u8], usize) -> Option<Option<u8>>);

impl Model for Drives {
    fn driven(&self, r: &Record, array: &[u8], sent: &[u8], i: usize) -> Option<u8> {
        self.0(r, sent, i).unwrap_or_else(|| Paper.driven(r, array, sent, i))
    }
}

/// A lock register is driven once.
pub fn lock_once(_: &Record, sent: &[u8], i: usize) -> Option<Option<u8>> {
    (sent[0] == RDLR && i > 4).then_some(None)
}

/// The registers are driven one after the other.
pub fn locks_in_order(r: &Record, sent: &[u8], i: usize) -> Option<Option<u8>> {
    let sector = || address(r.figures(), sent) / r.figures().sector_bytes;
    (sent[0] == RDLR && i >= 4).then(|| Some(r.locks[(sector() + i - 4) % LOCKS]))
}

/// The reserved bits of a register read 1.
pub fn reserved_ones(r: &Record, sent: &[u8], i: usize) -> Option<Option<u8>> {
    (sent[0] == RDLR && i >= 4).then(|| Some(r.lock(address(r.figures(), sent)) | 0xFC))
}

/// A further byte passes before the register, as in a fast read.
pub fn lock_after_a_byte(_: &Record, sent: &[u8], i: usize) -> Option<Option<u8>> {
    (sent[0] == RDLR && i == 4).then_some(None)
}

/// The needs of an instruction are others: none where they are the paper's.
pub struct Needs(pub fn(&Part, u8, usize, u32) -> Option<bool>);

impl Model for Needs {
    fn as_needed(&self, part: &Part, code: u8, n: usize, pulses: u32) -> bool {
        self.0(part, code, n, pulses).unwrap_or_else(|| Paper.as_needed(part, code, n, pulses))
    }
}

/// A release takes further bytes.
pub fn long_release(part: &Part, code: u8, _: usize, pulses: u32) -> Option<bool> {
    (code == RES && part.locks).then_some(pulses == 0)
}

/// A release takes further pulses.
pub fn pulsed_release(part: &Part, code: u8, n: usize, _: u32) -> Option<bool> {
    (code == RES && part.locks).then_some(n == 1)
}

/// Reading a lock register needs a byte to read it in.
pub fn longer_lock_read(_: &Part, code: u8, n: usize, _: u32) -> Option<bool> {
    (code == RDLR).then_some(n >= 5)
}

/// Reading a lock register ends at a whole byte.
pub fn whole_lock_read(_: &Part, code: u8, n: usize, pulses: u32) -> Option<bool> {
    (code == RDLR).then_some(n >= 4 && pulses == 0)
}

/// Writing a lock register takes further bytes.
pub fn long_lock_write(_: &Part, code: u8, n: usize, pulses: u32) -> Option<bool> {
    (code == WRLR).then_some(n >= 5 && pulses == 0)
}

/// A page write takes no more than a page.
pub fn one_page_at_most(_: &Part, code: u8, n: usize, pulses: u32) -> Option<bool> {
    (code == PW).then_some((5..=260).contains(&n) && pulses == 0)
}

/// Release drives the M25P40's signature, and takes any length.
pub struct ReleaseSigns;

impl Model for ReleaseSigns {
    fn as_needed(&self, part: &Part, code: u8, n: usize, pulses: u32) -> bool {
        code == RES || Paper.as_needed(part, code, n, pulses)
    }

    fn driven(&self, r: &Record, array: &[u8], sent: &[u8], i: usize) -> Option<u8> {
        match sent[0] {
            RES if i >= 4 => r.figures().signature.or(Some(0x12)),
            _ => Paper.driven(r, array, sent, i),
        }
    }
}

/// A code is known to the part of this number, too, or is not.
pub struct Knows {
    pub part: usize,
    pub code: u8,
    pub known: bool,
}

impl Model for Knows {
    fn known(&self, part: &Part, code: u8) -> bool {
        let meant = part.identification == PARTS[self.part].identification;
        match meant && code == self.code {
            true => self.known,
            false => Paper.known(part, code),
        }
    }
}

/// This instruction needs no latch.
pub struct NoLatchFor(pub u8);

impl Model for NoLatchFor {
    fn needs_latch(&self, code: u8) -> bool {
        code != self.0 && Paper.needs_latch(code)
    }
}
