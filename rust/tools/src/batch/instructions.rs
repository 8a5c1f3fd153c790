//! The instructions by code: their names, and what stands behind the code.

use m25p::Part;

/// An instruction of a part.
#[derive(Clone, Copy, Debug, PartialEq, Eq)]
pub struct Instruction {
    pub name: &'static str,
    /// Whether three bytes of address stand behind the code.
    pub addressed: bool,
    /// How many bytes come before data or answer: the code, the address and dummy bytes.
    pub head: usize,
    /// Whether the chip answers behind the head.
    pub answers: bool,
}

/// Without an address; what stands behind the code is data.
const fn plain(name: &'static str) -> Instruction {
    Instruction { name, addressed: false, head: 1, answers: false }
}

/// With an address; what stands behind it is data.
const fn addressed(name: &'static str) -> Instruction {
    Instruction { name, addressed: true, head: 4, answers: false }
}

/// Answers behind its head.
const fn answering(name: &'static str, addressed: bool, head: usize) -> Instruction {
    Instruction { name, addressed, head, answers: true }
}

impl Instruction {
    /// The one that a part knows by this code.
    pub const fn of(code: u8, part: Part) -> Option<Instruction> {
        let pe = matches!(part, Part::M25pe40);
        let identifies = !matches!(part, Part::M25p10aOlder);
        let sleeps = !matches!(part, Part::M25p128);
        Some(match code {
            0x06 => plain("WREN"),
            0x04 => plain("WRDI"),
            0x9F if identifies => answering("RDID", false, 1),
            0x05 => answering("RDSR", false, 1),
            0x01 => plain("WRSR"),
            0x03 => answering("READ", true, 4),
            0x0B => answering("FAST_READ", true, 5),
            0x02 => addressed("PP"),
            0xD8 => addressed("SE"),
            0xC7 => plain("BE"),
            0xB9 if sleeps => plain("DP"),
            0xAB if pe => plain("RDP"),
            0xAB if sleeps => answering("RES", false, 4),
            0x0A if pe => addressed("PW"),
            0xDB if pe => addressed("PE"),
            0x20 if pe => addressed("SSE"),
            0xE5 if pe => addressed("WRLR"),
            0xE8 if pe => answering("RDLR", true, 4),
            _ => return None,
        })
    }
}
