//! Lines of the bench program as items of a batch; of a line of another form it is said why.

use std::fmt;

use m25p::batch::Item;

/// The most characters of a line before its newline.
const MOST_CHARACTERS: usize = 600;

/// The most characters of a field that a sentence shows.
const MOST_SHOWN: usize = 20;

/// A line that has no place in a batch.
#[derive(Clone, Debug, PartialEq, Eq)]
pub struct BadLine {
    /// Counted from 1.
    pub number: usize,
    pub why: String,
}

impl fmt::Display for BadLine {
    fn fmt(&self, f: &mut fmt::Formatter) -> fmt::Result {
        write!(f, "line {}: {}", self.number, self.why)
    }
}

/// A batch with an item for each line. The last line may come without a newline.
pub fn items_of(text: &[u8]) -> Result<Vec<u8>, BadLine> {
    let mut items = Vec::new();
    for (number, line) in (1..).zip(text.split_inclusive(|byte| *byte == b'\n')) {
        let line = line.strip_suffix(b"\n").unwrap_or(line);
        append(line, &mut items).map_err(|why| BadLine { number, why })?;
    }
    Ok(items)
}

/// Appends the item that a line without its newline makes, or says why it has no place in a batch.
fn append(line: &[u8], items: &mut Vec<u8>) -> Result<(), String> {
    if line.len() > MOST_CHARACTERS {
        return Err(format!("it has {} characters; {MOST_CHARACTERS} are the most", line.len()));
    }
    if line.ends_with(b"\r") {
        return Err("it ends with CR; a line ends with LF alone".into());
    }
    let fields: Vec<&[u8]> = line.split(|byte| *byte == b' ').collect();
    let form = match fields[..] {
        [b""] => "an empty line has no place in a batch",
        [[b'#', ..], ..] => "a comment has no place in a batch",
        [b"p"] => "a power-up (p) has no place in a batch",
        _ if fields.contains(&&b""[..]) => "there is a space too many",
        [b"x", w, bits] => return transaction(w, bits, b"", items),
        [b"x", w, bits, hex] => return transaction(w, bits, hex, items),
        [b"w", t] => return wait(t, items),
        _ => "it is neither 'x W bits hex' nor 'w t'",
    };
    Err(form.into())
}

fn transaction(w: &[u8], bits: &[u8], hex: &[u8], items: &mut Vec<u8>) -> Result<(), String> {
    let w_high = digit(w, 1).ok_or_else(|| format!("W is 0 or 1, not {}", shown(w)))? == 1;
    let many = || format!("the further pulses are one digit, 0 to 7, not {}", shown(bits));
    let pulses = digit(bits, 7).ok_or_else(many)?;
    put(Item::Transaction { sent: &pairs(hex)?, pulses, w_high }, items)
}

fn wait(t: &[u8], items: &mut Vec<u8>) -> Result<(), String> {
    let digits = std::str::from_utf8(t).ok().filter(|t| t.bytes().all(|c| c.is_ascii_digit()));
    let other = || format!("the ticks are decimal digits, below 2^32, not {}", shown(t));
    let ticks = digits.and_then(|digits| digits.parse().ok()).ok_or_else(other)?;
    put(Item::Wait { ticks }, items)
}

fn put(item: Item, items: &mut Vec<u8>) -> Result<(), String> {
    item.append(items).map_err(|unfit| unfit.to_string())
}

/// A field of one digit, at most `most`.
fn digit(field: &[u8], most: u8) -> Option<u8> {
    let [character] = field else { return None };
    character.checked_sub(b'0').filter(|digit| *digit <= most)
}

/// Bytes of hex digits in either case.
fn pairs(hex: &[u8]) -> Result<Vec<u8>, String> {
    if let Some(other) = hex.iter().find(|character| !character.is_ascii_hexdigit()) {
        return Err(format!("{} is not a hex digit", shown(&[*other])));
    }
    if hex.len() % 2 == 1 {
        return Err(format!("hex digits come in pairs, and there are {}", hex.len()));
    }
    let value = |digit: u8| (digit as char).to_digit(16).expect("a hex digit") as u8;
    Ok(hex.chunks(2).map(|pair| value(pair[0]) << 4 | value(pair[1])).collect())
}

/// A field in a sentence, shortened; what cannot be printed is escaped.
fn shown(field: &[u8]) -> String {
    let rest = if field.len() > MOST_SHOWN { ".." } else { "" };
    format!("{}{rest}", field[..field.len().min(MOST_SHOWN)].escape_ascii())
}
