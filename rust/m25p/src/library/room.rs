//! Room in the shared memory for the slices of a call that lie elsewhere: they are copied there and back,
//! with guards before and behind each, which no call may touch.

use std::hint::black_box;

use super::shared::{self, Held};

/// A slice of a call.
pub enum Lent<'a> {
    Kept(&'a [u8]),
    Changed(&'a mut [u8]),
}

impl Lent<'_> {
    pub fn bytes(&self) -> &[u8] {
        match self {
            Lent::Kept(bytes) => bytes,
            Lent::Changed(bytes) => bytes,
        }
    }
}

/// The length of a guard, and what it is filled with.
const GUARD: usize = 64;
const MARK: u8 = 0xA5;

pub struct Room(Held);

impl Default for Room {
    fn default() -> Room {
        Room(Held::from(vec![0; 1 << 18]))
    }
}

impl Room {
    /// Where each slice lies in the shared memory, which is its own place or a copy in the room.
    pub fn lend(&mut self, lent: &[Lent]) -> Vec<usize> {
        let elsewhere = lent.iter().filter(|slice| shared::place(slice.bytes()).is_none());
        let needed = elsewhere.map(|slice| slice.bytes().len() + 2 * GUARD).sum();
        if self.0.len() < needed {
            self.0 = Held::from(vec![0; needed]);
        }
        let mut free = 0;
        let mut place = |slice: &Lent| {
            let bytes = slice.bytes();
            shared::place(black_box(bytes)).unwrap_or_else(|| {
                let at = free + GUARD;
                let end = at + bytes.len();
                self.0[free..at].fill(MARK);
                self.0[at..end].copy_from_slice(bytes);
                self.0[end..end + GUARD].fill(MARK);
                free = end + GUARD;
                self.start() + at
            })
        };
        lent.iter().map(&mut place).collect()
    }

    /// Copies back what the call may have changed.
    pub fn take_back(&self, lent: &mut [Lent], places: &[usize]) {
        for (slice, place) in lent.iter_mut().zip(places) {
            let length = slice.bytes().len();
            let Some(at) = place.checked_sub(self.start()).filter(|at| *at < self.0.len()) else {
                // Another process has changed these bytes: the compiler must not keep old ones.
                black_box(slice.bytes());
                continue;
            };
            let guards = [&self.0[at - GUARD..at], &self.0[at + length..at + length + GUARD]];
            let whole = guards.concat().iter().all(|byte| *byte == MARK);
            assert!(whole, "a call has written before or behind a slice");
            let copy = &self.0[at..at + length];
            match slice {
                Lent::Kept(bytes) => {
                    assert!(copy == *bytes, "a call has written to what it may only read")
                }
                Lent::Changed(bytes) => bytes.copy_from_slice(copy),
            }
        }
    }

    fn start(&self) -> usize {
        shared::place(&self.0).expect("the room lies in the shared memory")
    }
}
