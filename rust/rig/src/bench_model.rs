//! A model of the bench program: the whole output text that belongs to an input text.

use crate::model::{Model, Packed, Paper, Transaction, RECORD_BYTES};

/// What a well-formed line asks for.
#[derive(Clone, Debug, PartialEq, Eq)]
pub enum Line {
    Transaction { w: u32, pulses: u32, sent: Vec<u8> },
    Wait(u32),
    PowerUp,
}

/// The most characters of a line before its newline.
pub const MOST_CHARACTERS: usize = 600;

/// The number that answers a line of another form.
const MALFORMED: u8 = 90;

/// The meaning of a line without its newline; none if it is of another form.
pub fn parse(line: &[u8]) -> Option<Line> {
    if line.len() > MOST_CHARACTERS {
        return None;
    }
    let fields: Vec<&[u8]> = line.split(|byte| *byte == b' ').collect();
    match fields[..] {
        [b"p"] => Some(Line::PowerUp),
        [b"w", ticks] => Some(Line::Wait(decimal(ticks)?)),
        [b"x", w, bits] => transaction(w, bits, Vec::new()),
        [b"x", w, bits, hex] => transaction(w, bits, pairs(hex)?),
        _ => None,
    }
}

fn transaction(w: &[u8], bits: &[u8], sent: Vec<u8>) -> Option<Line> {
    Some(Line::Transaction { w: one_digit(w, 1)?, pulses: one_digit(bits, 7)?, sent })
}

/// A field of one digit, at most `most`.
fn one_digit(field: &[u8], most: u8) -> Option<u32> {
    match field {
        [digit] if (b'0'..=b'0' + most).contains(digit) => Some((digit - b'0') as u32),
        _ => None,
    }
}

/// Decimal digits, at least one, below 2^32.
fn decimal(field: &[u8]) -> Option<u32> {
    if field.is_empty() {
        return None;
    }
    let mut value: u64 = 0;
    for digit in field {
        if !digit.is_ascii_digit() {
            return None;
        }
        value = value * 10 + (digit - b'0') as u64;
        if value >= 1 << 32 {
            return None;
        }
    }
    Some(value as u32)
}

/// Hex pairs in either case, at least one.
fn pairs(field: &[u8]) -> Option<Vec<u8>> {
    if field.is_empty() || field.len() % 2 != 0 {
        return None;
    }
    let digit = |byte: u8| (byte as char).to_digit(16);
    field.chunks(2).map(|pair| Some((digit(pair[0])? * 16 + digit(pair[1])?) as u8)).collect()
}

/// The lines of an input; a last line without newline counts if it has bytes.
pub fn lines(input: &[u8]) -> Vec<&[u8]> {
    let mut lines: Vec<&[u8]> = input.split(|byte| *byte == b'\n').collect();
    if lines.last().is_some_and(|last| last.is_empty()) {
        lines.pop();
    }
    lines
}

/// The bench part and its answers.
pub struct Bench {
    record: Packed,
    array: Vec<u8>,
}

impl Default for Bench {
    fn default() -> Bench {
        let mut bench = Bench { record: [0; RECORD_BYTES], array: vec![0; 4_096] };
        let durations = [3, 5, 9, 2];
        Paper.deliver(&mut bench.record, 0, &mut bench.array, durations);
        bench
    }
}

impl Bench {
    /// The packed record between two lines.
    pub fn record(&self) -> &Packed {
        &self.record
    }

    /// Carries a line out: its answer number and its response.
    pub fn carry_out(&mut self, line: &[u8]) -> (u8, Vec<u8>) {
        match parse(line) {
            None => (MALFORMED, Vec::new()),
            Some(Line::PowerUp) => {
                (Paper.power_up(&mut self.record, &mut self.array).answer, Vec::new())
            }
            Some(Line::Wait(t)) => {
                (Paper.wait(&mut self.record, &mut self.array, t).answer, Vec::new())
            }
            Some(Line::Transaction { w, pulses, sent }) => {
                let t = Transaction { sent: &sent, pulses, w };
                let mut response = vec![0; sent.len()];
                let outcome = Paper.transact(&mut self.record, &mut self.array, t, &mut response);
                (outcome.answer, response)
            }
        }
    }

    /// The printed line that answers line `number`.
    pub fn answer(&mut self, number: usize, line: &[u8]) -> String {
        let (answer, response) = self.carry_out(line);
        let hex: String = response.iter().map(|byte| format!("{byte:02X}")).collect();
        let shown = if hex.is_empty() { "-" } else { &hex };
        format!("{number} {answer} {shown}\n")
    }
}

/// The header that stands before all answers.
pub const HEADER: &str = "n ans q\n";

/// The whole output for an input.
pub fn output(input: &[u8]) -> String {
    let mut bench = Bench::default();
    let mut text = String::from(HEADER);
    let lines = lines(input);
    for (i, line) in lines.iter().enumerate() {
        text += &bench.answer(i + 1, line);
    }
    text + &format!("end {}\n", lines.len())
}
