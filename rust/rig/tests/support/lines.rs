//! Items of the worked cases in hex, each with its length, its flag and its bytes.

use crate::cases::bytes;

/// The bytes of these items, in hex with spaces.
pub fn items(lines: &[&str]) -> Vec<u8> {
    bytes(&lines.concat().replace(' ', ""))
}

/// Write enable, a program, the status in its course, and a read of what it left.
pub const FIRST: [&str; 8] = [
    "0100 01 06",
    "0500 01 02 000010 5A",
    "0200 01 05 00",
    "0400 10 02000000",
    "0200 01 05 00",
    "0400 10 01000000",
    "0200 01 05 00",
    "0700 01 03 00000F 000000",
];

/// Much that the chip ignores, and what it executes between.
pub const IGNORED: [&str; 18] = [
    "0000 01",
    "0000 0F",
    "0100 01 00",
    "0100 03 06",
    "0100 09 06",
    "0100 08 06",
    "0100 01 C7",
    "0100 00 06",
    "0100 01 B9",
    "0200 01 05 00",
    "0500 0F AB 000000 00",
    "0100 01 C7",
    "0100 01 06",
    "0200 0E 05 00",
    "0400 10 08000000",
    "0200 01 05 00",
    "0400 10 FFFFFFFF",
    "0200 01 05 00",
];
