//! Items and answers as text.

use std::fmt::{self, Display, Formatter};

use m25p::batch::Item;
use m25p::{Answer, Part};

use super::Instruction;

/// The most bytes of an answer that are shown.
const MOST_SHOWN: usize = 8;

/// An item as a line shows it, with its number and the names of a part.
pub struct Shown<'a> {
    pub number: usize,
    pub item: Item<'a>,
    pub part: Part,
}

impl Display for Shown<'_> {
    fn fmt(&self, f: &mut Formatter) -> fmt::Result {
        write!(f, "{} ", self.number)?;
        match self.item {
            Item::Wait { ticks } => write!(f, "wait {ticks}"),
            Item::Transaction { sent, pulses, w_high } => {
                sent_text(f, sent, self.part)?;
                if !w_high {
                    f.write_str(" W low")?;
                }
                match pulses {
                    0 => Ok(()),
                    _ => write!(f, " pulses {pulses}"),
                }
            }
        }
    }
}

/// What is sent: the name or the code, the address, and how many bytes come behind these.
fn sent_text(f: &mut Formatter, sent: &[u8], part: Part) -> fmt::Result {
    let Some((&code, behind)) = sent.split_first() else { return f.write_str("no bytes") };
    let known = Instruction::of(code, part);
    match known {
        Some(instruction) => f.write_str(instruction.name)?,
        None => write!(f, "?? {code:02X}")?,
    }
    let head = match (known, behind) {
        (Some(instruction), _) if !instruction.addressed => instruction.head,
        (Some(instruction), [high, middle, low, ..]) => {
            write!(f, " {high:02X}{middle:02X}{low:02X}")?;
            instruction.head
        }
        // Bytes of an address that is cut, or behind an unknown code, are shown by their number alone.
        _ => 1,
    };
    match sent.len().saturating_sub(head) {
        0 => Ok(()),
        further => write!(f, " +{further}"),
    }
}

/// What came of a transaction: the answer and, of one that reads, the bytes that the chip answered.
pub struct Outcome<'a> {
    pub answer: Answer,
    pub read: &'a [u8],
}

impl<'a> Outcome<'a> {
    /// That of a transaction with its whole response.
    pub fn of(sent: &[u8], part: Part, answer: Answer, response: &'a [u8]) -> Outcome<'a> {
        let instruction = sent.first().and_then(|code| Instruction::of(*code, part));
        let head = instruction.filter(|known| known.answers).map(|known| known.head);
        let read = head.and_then(|head| response.get(head..)).unwrap_or_default();
        Outcome { answer, read: if answer == Answer::Executed { read } else { &[] } }
    }
}

impl Display for Outcome<'_> {
    fn fmt(&self, f: &mut Formatter) -> fmt::Result {
        let Outcome { answer, read } = self;
        match answer {
            Answer::Executed => f.write_str("0 executed")?,
            ignored => write!(f, "{} ignored: {ignored}", ignored.number())?,
        }
        if !read.is_empty() {
            f.write_str(":")?;
        }
        for byte in read.iter().take(MOST_SHOWN) {
            write!(f, " {byte:02X}")?;
        }
        f.write_str(if read.len() > MOST_SHOWN { " .." } else { "" })
    }
}
