//! Bytes that a call is lent without a copy.

use std::ops::{Deref, DerefMut};

use crate::library::Held;

/// Bytes that a call is lent without a copy, on every processor.
///
/// Where the library runs behind a bridge, slices from elsewhere are copied there and back at each call;
/// for a large array that takes its time. Made of a `Vec<u8>`, and used as a slice.
#[derive(Clone, Debug, PartialEq)]
pub struct Buffer(Held);

impl From<Vec<u8>> for Buffer {
    fn from(bytes: Vec<u8>) -> Buffer {
        Buffer(Held::from(bytes))
    }
}

impl Deref for Buffer {
    type Target = [u8];

    fn deref(&self) -> &[u8] {
        &self.0
    }
}

impl DerefMut for Buffer {
    fn deref_mut(&mut self) -> &mut [u8] {
        &mut self.0
    }
}
