//! Batches: transactions and waits as a row of items in bytes, written here and read again.
//!
//! An item is two bytes of length (little-endian), a flag byte, and that many bytes. In the flag of a
//! transaction bit 0 is W and bits 1 to 3 are the further pulses; what follows is sent. The flag of a wait is
//! 16, its length 4, and what follows are the ticks, little-endian. [`Chip::batch`](crate::Chip::batch)
//! carries the items out in order.
//!
//! ```
//! use m25p::batch::{items, Item};
//! use m25p::{Chip, Durations, Part};
//!
//! let send = |sent| Item::Transaction { sent, pulses: 0, w_high: true };
//! let wait = Item::Wait { ticks: Durations::default().program };
//! let day = [send(&[0x06]), send(&[0x02, 0, 0, 0x10, 0x5A]), wait, send(&[0x03, 0, 0, 0x10, 0])];
//! let mut bytes = Vec::new();
//! for item in day {
//!     item.append(&mut bytes)?;
//! }
//! assert_eq!(bytes[..9], [1, 0, 0b0001, 0x06, 5, 0, 0b0001, 0x02, 0]);
//!
//! let mut chip = Chip::deliver(Part::M25p40, Durations::default())?;
//! let done = chip.batch(&bytes)?;
//! assert_eq!(done.answers, [0, 0, 0, 0]);
//! assert_eq!(done.responses.last(), Some(&0x5A));
//!
//! let read: Result<Vec<Item>, _> = items(&bytes).collect();
//! assert_eq!(read?, day);
//! # Ok::<(), Box<dyn std::error::Error>>(())
//! ```

use std::error::Error;
use std::fmt;

/// The most bytes that a transaction of a batch sends. A single one may send a byte more.
pub const MOST_SENT: usize = u16::MAX as usize;

/// The bytes of an item before what is sent or the ticks: its length and its flag.
pub const HEAD_BYTES: usize = 3;

/// The flag of a wait; those below are transactions, those above are bad.
pub const WAIT: u8 = 16;

/// One item of a batch.
#[derive(Clone, Copy, Debug, PartialEq, Eq)]
pub enum Item<'a> {
    /// A transaction, one period of Chip Select low.
    Transaction {
        /// What is sent, at most [`MOST_SENT`] bytes.
        sent: &'a [u8],
        /// The further clock pulses, at most 7.
        pulses: u8,
        /// Whether W is high as Chip Select rises.
        w_high: bool,
    },
    /// Ticks that pass.
    Wait {
        /// How many.
        ticks: u32,
    },
}

impl<'a> Item<'a> {
    /// Appends the item's bytes; nothing is appended of an item that a batch can't hold.
    pub fn append(&self, items: &mut Vec<u8>) -> Result<(), Unfit> {
        let ticks;
        let (flag, body) = match *self {
            Item::Transaction { pulses: 8.., .. } => return Err(Unfit::Pulses),
            Item::Transaction { sent, pulses, w_high } => (pulses << 1 | u8::from(w_high), sent),
            Item::Wait { ticks: number } => {
                ticks = number.to_le_bytes();
                (WAIT, &ticks[..])
            }
        };
        let length = u16::try_from(body.len()).map_err(|_| Unfit::SentLength)?;
        items.extend(length.to_le_bytes());
        items.push(flag);
        items.extend(body);
        Ok(())
    }

    /// How many response bytes belong to it: as many as a transaction sends, none of a wait.
    pub fn response_bytes(&self) -> usize {
        match self {
            Item::Transaction { sent, .. } => sent.len(),
            Item::Wait { .. } => 0,
        }
    }

    /// The item with this flag and these bytes behind its head.
    fn of(flag: u8, body: &'a [u8]) -> Result<Item<'a>, Reason> {
        match flag {
            0..WAIT => {
                Ok(Item::Transaction { sent: body, pulses: flag >> 1, w_high: flag & 1 == 1 })
            }
            WAIT => match body.try_into() {
                Ok(ticks) => Ok(Item::Wait { ticks: u32::from_le_bytes(ticks) }),
                Err(_) => Err(Reason::WaitLength(body.len())),
            },
            _ => Err(Reason::Flag(flag)),
        }
    }
}

/// Why a batch can't hold an item.
#[derive(Clone, Copy, Debug, PartialEq, Eq, Hash)]
pub enum Unfit {
    /// More than [`MOST_SENT`] bytes are sent.
    SentLength,
    /// There are more than 7 further pulses.
    Pulses,
}

impl fmt::Display for Unfit {
    fn fmt(&self, f: &mut fmt::Formatter) -> fmt::Result {
        f.pad(match self {
            Unfit::SentLength => "an item of a batch sends at most 65,535 bytes",
            Unfit::Pulses => "there are more than 7 further pulses",
        })
    }
}

impl Error for Unfit {}

/// The items of a batch, in order. After a bad item, which is an error, there are no more.
pub fn items(bytes: &[u8]) -> Items<'_> {
    Items { bytes, at: 0 }
}

/// The iterator of [`items`].
#[derive(Clone, Debug)]
pub struct Items<'a> {
    bytes: &'a [u8],
    at: usize,
}

impl<'a> Items<'a> {
    /// The next item and where it ends.
    fn read(&self) -> Result<(Item<'a>, usize), Reason> {
        let rest = &self.bytes[self.at..];
        let Some((&[low, high, flag], behind)) = rest.split_first_chunk::<HEAD_BYTES>() else {
            return Err(Reason::Head(rest.len()));
        };
        let length = usize::from(u16::from_le_bytes([low, high]));
        let body = behind.get(..length).ok_or(Reason::Body { length, left: behind.len() })?;
        Ok((Item::of(flag, body)?, self.at + HEAD_BYTES + length))
    }
}

impl<'a> Iterator for Items<'a> {
    type Item = Result<Item<'a>, BadItem>;

    fn next(&mut self) -> Option<Self::Item> {
        if self.at == self.bytes.len() {
            return None;
        }
        let read = self.read().map_err(|reason| BadItem { at: self.at, reason });
        self.at = read.as_ref().map_or(self.bytes.len(), |(_, end)| *end);
        Some(read.map(|(item, _)| item))
    }
}

/// A bad item: what [`Answer::BadItem`](crate::Answer::BadItem) refuses a batch for.
#[derive(Clone, Copy, Debug, PartialEq, Eq, Hash)]
pub struct BadItem {
    /// Where it begins: the place of its first byte in the batch.
    pub at: usize,
    /// What is wrong with it.
    pub reason: Reason,
}

/// What is wrong with an item.
#[derive(Clone, Copy, Debug, PartialEq, Eq, Hash)]
pub enum Reason {
    /// It is cut in its length and flag: only so many bytes are left.
    Head(usize),
    /// It is cut behind its flag.
    Body {
        /// The length that it has by its first two bytes.
        length: usize,
        /// How many bytes are left behind its flag.
        left: usize,
    },
    /// A flag of 17 or above.
    Flag(u8),
    /// A wait of this length, not of 4.
    WaitLength(usize),
}

impl fmt::Display for BadItem {
    fn fmt(&self, f: &mut fmt::Formatter) -> fmt::Result {
        write!(f, "the item at byte {} ", self.at)?;
        match self.reason {
            Reason::Head(left) => {
                write!(f, "is cut: it has {left} of the 3 bytes of length and flag")
            }
            Reason::Body { length, left } => {
                write!(f, "is cut: it has {left} of the {length} bytes behind its flag")
            }
            Reason::Flag(flag) => write!(f, "has the flag {flag}, which is above 16"),
            Reason::WaitLength(length) => write!(f, "is a wait of length {length}, not of 4"),
        }
    }
}

impl Error for BadItem {}
