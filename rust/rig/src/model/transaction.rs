//! What is sent and what is answered: the instruction codes, the form that each needs, addresses, and the four
//! numbers of an answer.

use super::part::Part;
use super::record::Record;

pub const WREN: u8 = 0x06;
pub const WRDI: u8 = 0x04;
pub const RDID: u8 = 0x9F;
pub const RDSR: u8 = 0x05;
pub const WRSR: u8 = 0x01;
pub const READ: u8 = 0x03;
pub const FAST_READ: u8 = 0x0B;
pub const PP: u8 = 0x02;
pub const SE: u8 = 0xD8;
pub const BE: u8 = 0xC7;
pub const DP: u8 = 0xB9;
pub const RES: u8 = 0xAB;
pub const PW: u8 = 0x0A;
pub const PE: u8 = 0xDB;
pub const SSE: u8 = 0x20;
pub const WRLR: u8 = 0xE5;
pub const RDLR: u8 = 0xE8;

/// The twelve instruction codes of the M25P parts, and the five that only the M25PE40 has.
pub const CODES: [u8; 17] =
    [WREN, WRDI, RDID, RDSR, WRSR, READ, FAST_READ, PP, SE, BE, DP, RES, PW, PE, SSE, WRLR, RDLR];

/// What is sent: the whole bytes, the further pulses, and W (low for 0, else high).
#[derive(Clone, Copy)]
pub struct Transaction<'a> {
    pub sent: &'a [u8],
    pub pulses: u32,
    pub w: u32,
}

/// The four numbers of an answer.
#[derive(Clone, Copy, Debug, PartialEq, Eq)]
pub struct Outcome {
    pub answer: u8,
    pub first: usize,
    pub count: usize,
    /// How many bits a program wanted 1 that were 0 in the array.
    pub missing: u32,
}

impl Outcome {
    pub fn only(answer: u8) -> Outcome {
        Outcome { answer, first: 0, count: 0, missing: 0 }
    }

    /// The answer as a C call carries it.
    pub fn word(&self) -> u64 {
        let seen = self.answer as u64 | (self.first as u64) << 8 | (self.count as u64) << 16;
        seen | (self.missing as u64) << 48
    }
}

/// A lent record, or the number of the host side behind 8, 6 and 2: 3, 4, 5.
pub fn accepted(lent: Result<Record, u8>, t: Transaction, response: &[u8]) -> Result<Record, u8> {
    let r = lent?;
    if t.sent.len() > 65_536 {
        return Err(3);
    }
    if t.pulses > 7 {
        return Err(4);
    }
    if response.len() < t.sent.len() {
        return Err(5);
    }
    Ok(r)
}

/// Whether n and the further pulses are as the instruction needs.
pub fn as_needed(part: &Part, code: u8, n: usize, pulses: u32) -> bool {
    match code {
        WREN | WRDI | BE | DP => n == 1 && pulses == 0,
        RES if part.locks => n == 1 && pulses == 0,
        WRSR => n == 2 && pulses == 0,
        SE | PE | SSE => n == 4 && pulses == 0,
        WRLR => n == 5 && pulses == 0,
        PP | PW => n >= 5 && pulses == 0,
        READ | RDLR => n >= 4,
        FAST_READ => n >= 5,
        _ => n >= 1,
    }
}

/// Whether the instruction needs the write enable latch.
pub fn needs_latch(code: u8) -> bool {
    matches!(code, WRSR | PP | SE | BE | PW | PE | SSE | WRLR)
}

/// Bytes 1 to 3, high byte first.
pub fn full_address(sent: &[u8]) -> usize {
    (sent[1] as usize) << 16 | (sent[2] as usize) << 8 | sent[3] as usize
}

/// The address, modulo the part's size.
pub fn address(part: &Part, sent: &[u8]) -> usize {
    full_address(sent) % part.bytes
}
