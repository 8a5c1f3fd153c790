//! The report as JSON, with exact numbers.

use std::fmt::{self, Display, Formatter, Write};

use super::rows::{Answered, Executed, Sector};
use super::{Refused, Week};

/// The report for another program.
pub struct Json<'a>(pub &'a Week);

impl Display for Json<'_> {
    fn fmt(&self, f: &mut Formatter) -> fmt::Result {
        let Week { chip, totals, taken, refused: files } = self.0;
        let part = Text(chip.part().name());
        writeln!(f, "{{\n  \"part\": {part},\n  \"taken\": {taken},")?;
        list(f, "refused", files, refused)?;
        let (transactions, driven) = (totals.transactions(), totals.driven);
        writeln!(f, "  \"transactions\": {transactions},\n  \"driven_bytes\": {driven},")?;
        list(f, "executed", &self.0.executed(), executed)?;
        list(f, "answers", &self.0.answers(), answered)?;
        list(f, "sectors", &self.0.sectors(), sector)?;
        writeln!(f, "  \"cycle_running\": {}\n}}", chip.cycle().is_some())
    }
}

/// A list under its name, a row in each line.
fn list<T>(f: &mut Formatter, name: &str, rows: &[T], text: fn(&T) -> String) -> fmt::Result {
    let rows: Vec<String> = rows.iter().map(|row| format!("\n    {{{}}}", text(row))).collect();
    let end = if rows.is_empty() { "" } else { "\n  " };
    writeln!(f, "  \"{name}\": [{}{end}],", rows.join(","))
}

fn refused(Refused { file, answer, sentence }: &Refused) -> String {
    let (file, sentence) = (file.to_string_lossy(), Text(sentence));
    let answer = answer.map_or("null".into(), |answer| answer.number().to_string());
    format!("\"file\": {}, \"answer\": {answer}, \"sentence\": {sentence}", Text(&file))
}

fn executed(Executed { code, name, count }: &Executed) -> String {
    format!("\"code\": {code}, \"name\": {}, \"count\": {count}", Text(name))
}

fn answered(Answered { number, meaning, count }: &Answered) -> String {
    format!("\"number\": {number}, \"meaning\": {}, \"count\": {count}", Text(meaning))
}

fn sector(Sector { number, first, last, programs }: &Sector) -> String {
    let addresses = format!("\"first\": {first}, \"last\": {last}");
    format!("\"sector\": {number}, {addresses}, \"programs\": {programs}")
}

/// A text in quotation marks.
struct Text<'a>(&'a str);

impl Display for Text<'_> {
    fn fmt(&self, f: &mut Formatter) -> fmt::Result {
        f.write_char('"')?;
        for c in self.0.chars() {
            match c {
                '"' | '\\' => write!(f, "\\{c}")?,
                '\0'..' ' => write!(f, "\\u{:04x}", u32::from(c))?,
                _ => f.write_char(c)?,
            }
        }
        f.write_char('"')
    }
}
