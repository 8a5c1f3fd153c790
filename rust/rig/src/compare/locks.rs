//! What only the M25PE40 does, in a comparison: lock registers, page writes, and a release that is nothing more.

use super::{Call, Mode, Record, Seen, Step};
use crate::model::{address, LOCKS, LOCK_DOWN, PAGE, WRITE_LOCK};
use crate::model::{BE, PE, PP, PW, RDLR, RES, SE, SSE, WRLR};

/// A call that was answered, and what it met.
struct Met<'a> {
    call: &'a Call,
    answer: u8,
    lent: &'a Record,
    /// The address in the transaction, and how many bytes stand behind it.
    place: usize,
    data: usize,
    /// The lock register there; of a bulk erase the bits of all.
    lock: u8,
    /// Whether BP protects the place; of a bulk erase, anything.
    by_bp: bool,
}

impl Met<'_> {
    fn new<'a>(call: &'a Call, answer: u8, lent: &'a Record) -> Met<'a> {
        let (sent, part) = (sent(call), lent.figures());
        let place = if sent.len() < 4 { 0 } else { address(part, sent) };
        let (lock, by_bp) = match sent {
            [BE, ..] => (lent.locks.iter().fold(0, |all, lock| all | lock), lent.bp > 0),
            _ => (lent.lock(place), lent.unlocked().protects(place)),
        };
        Met { call, answer, lent, place, data: sent.len().saturating_sub(4), lock, by_bp }
    }

    /// Whether it is a transaction of this code with this answer.
    fn answered(&self, code: u8, answer: u8) -> bool {
        sent(self.call).first() == Some(&code) && self.answer == answer
    }

    /// Whether a lock register is written with such a byte over such a value.
    fn written(&self, with: fn(u8, u8) -> bool) -> bool {
        self.answered(WRLR, 0) && with(sent(self.call)[4], self.lock)
    }

    /// Whether a frozen one is, and stays.
    fn refused(&self, with: fn(u8, u8) -> bool) -> bool {
        self.answered(WRLR, 19) && with(sent(self.call)[4], self.lock)
    }

    fn w_low(&self) -> bool {
        matches!(self.call, Call::Transact { w: 0, .. })
    }

    /// Whether the call passed over lock registers that are not all 0, in a cycle or not.
    fn passed(&self, busy: bool) -> bool {
        let locked = self.answer == 0 && self.lent.locks != [0; LOCKS];
        locked && self.lent.cycle().is_some() == busy
    }

    fn waited_out(&self) -> bool {
        match (self.call, self.lent.mode) {
            (Call::Wait(ticks), Mode::Busy(left, _)) => *ticks >= left && self.passed(true),
            _ => false,
        }
    }
}

/// The bytes of a transaction; none of another call.
fn sent(call: &Call) -> &[u8] {
    match call {
        Call::Transact { sent, .. } => sent,
        _ => &[],
    }
}

/// What is counted.
type Event = (&'static str, fn(&Met) -> bool);

const EVENTS: [Event; 30] = [
    ("PP stopped by a lock alone", |m| m.answered(PP, 17) && !m.by_bp),
    ("SE stopped by a lock alone", |m| m.answered(SE, 17) && !m.by_bp),
    ("BE stopped by a lock alone", |m| m.answered(BE, 17) && !m.by_bp),
    ("PW stopped by a lock alone", |m| m.answered(PW, 17) && !m.by_bp),
    ("PE stopped by a lock alone", |m| m.answered(PE, 17) && !m.by_bp),
    ("SSE stopped by a lock alone", |m| m.answered(SSE, 17) && !m.by_bp),
    ("PP under lock-down alone", |m| m.answered(PP, 0) && m.lock == LOCK_DOWN),
    ("SE under lock-down alone", |m| m.answered(SE, 0) && m.lock == LOCK_DOWN),
    ("BE under lock-down alone", |m| m.answered(BE, 0) && m.lock == LOCK_DOWN),
    ("PW under lock-down alone", |m| m.answered(PW, 0) && m.lock == LOCK_DOWN),
    ("PE under lock-down alone", |m| m.answered(PE, 0) && m.lock == LOCK_DOWN),
    ("SSE under lock-down alone", |m| m.answered(SSE, 0) && m.lock == LOCK_DOWN),
    ("a lock read that is not 0", |m| m.answered(RDLR, 0) && m.data > 0 && m.lock != 0),
    ("a lock written where BP protects", |m| m.answered(WRLR, 0) && m.by_bp),
    ("a lock taken off", |m| m.written(|byte, lock| lock & WRITE_LOCK > byte & WRITE_LOCK)),
    ("a lock written frozen", |m| m.written(|byte, _| byte & LOCK_DOWN != 0)),
    ("a lock written with bits above", |m| m.written(|byte, _| byte > 3)),
    ("a lock written, SRWD and W low", |m| m.answered(WRLR, 0) && m.lent.srwd && m.w_low()),
    ("a frozen lock, the same value", |m| m.refused(|byte, lock| byte == lock)),
    ("a frozen lock, another value", |m| m.refused(|byte, lock| byte != lock)),
    ("powered up with a lock", |m| matches!(m.call, Call::PowerUp) && m.passed(false)),
    ("powered up with a lock in a cycle", |m| matches!(m.call, Call::PowerUp) && m.passed(true)),
    ("lost power with a lock", |m| matches!(m.call, Call::Loss { .. }) && m.passed(false)),
    ("lost power with a lock in a cycle", |m| {
        matches!(m.call, Call::Loss { .. }) && m.passed(true)
    }),
    ("waited a cycle out with a lock", |m| m.waited_out()),
    ("PW of one byte", |m| m.answered(PW, 0) && m.data == 1),
    ("PW that wraps", |m| m.answered(PW, 0) && m.data <= PAGE && m.place % PAGE + m.data > PAGE),
    ("PW above 256 bytes", |m| m.answered(PW, 0) && m.data > PAGE),
    ("a release in standby", |m| m.answered(RES, 0) && m.lent.mode == Mode::Standby),
    ("a release not alone, deep", |m| m.answered(RES, 15) && m.lent.mode == Mode::Deep),
];

/// How often each came.
#[derive(Default)]
pub struct Locks([u64; EVENTS.len()]);

impl Locks {
    /// Counts a call on a record that was lent.
    pub fn count(&mut self, step: &Step, seen: &Seen, lent: &Record) {
        if lent.figures().locks {
            let met = Met::new(&step.call, seen.answer(), lent);
            for (times, (_, is)) in self.0.iter_mut().zip(EVENTS) {
                *times += u64::from(is(&met));
            }
        }
    }

    /// What came less than so many times.
    pub fn seldom(&self, times: u64) -> Vec<&'static str> {
        let seldom = EVENTS.into_iter().zip(self.0).filter(|(_, came)| *came < times);
        seldom.map(|((name, _), _)| name).collect()
    }

    pub fn show(&self) -> String {
        let came =
            EVENTS.into_iter().zip(self.0).map(|((name, _), times)| format!("{name} {times}"));
        format!("M25PE40: {}", came.collect::<Vec<_>>().join(", "))
    }
}
