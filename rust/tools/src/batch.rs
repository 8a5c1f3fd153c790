//! The command `batch`: a file of transactions and waits is made of bench lines, listed, or carried out on a part.

mod instructions;
mod lines;
mod options;
mod run;
mod text;

pub use instructions::Instruction;
pub use lines::{items_of, BadLine};
pub use options::USAGE;

use std::ffi::OsString;
use std::io::{self, Read, Write};
use std::path::Path;

use m25p::batch::{items, BadItem};
use m25p::{Answer, Part};

use crate::command::{read, refusal, write};
use crate::program::Failure;
use options::Request;
use text::Shown;

/// What is said of a chip at the end, where it is so.
pub const STILL_RUNNING: &str = "a cycle is still running: its change is not in the array";

/// Does what the words ask for; what is to be printed goes to `out`.
pub fn carry_out(
    words: impl IntoIterator<Item = OsString>,
    out: &mut impl Write,
) -> Result<(), Failure> {
    match Request::parse(words)? {
        Request::Write { lines, out: path } => make(&lines, &path, out),
        Request::List { file, part } => list(&file, part, out),
        Request::Run(options) => run::run(&options, out),
    }
}

/// Makes a batch file of bench lines; where one of them is bad, nothing is written.
fn make(lines: &Path, path: &Path, out: &mut impl Write) -> Result<(), Failure> {
    let (text, shown) = match lines.to_str() {
        Some("-") => (input()?, "Standard input".to_string()),
        _ => (read(lines)?, lines.display().to_string()),
    };
    let bytes = items_of(&text).map_err(|bad| format!("{shown}, {bad}."))?;
    write(path, &bytes)?;
    Ok(writeln!(out, "items {}, bytes {}", items(&bytes).count(), bytes.len())?)
}

/// All of standard input.
fn input() -> Result<Vec<u8>, String> {
    let mut text = Vec::new();
    let all = io::stdin().lock().read_to_end(&mut text);
    all.map(|_| text).map_err(|e| format!("Standard input cannot be read: {e}."))
}

/// Prints a line for each item, up to a bad one.
fn list(file: &Path, part: Part, out: &mut impl Write) -> Result<(), Failure> {
    let bytes = read(file)?;
    for (number, item) in (1..).zip(items(&bytes)) {
        let item = item.map_err(|bad| bad_item(file, number, bad))?;
        writeln!(out, "{}", Shown { number, item, part })?;
    }
    Ok(())
}

/// The sentence of a batch file with a bad item.
fn bad_item(file: &Path, number: usize, bad: BadItem) -> String {
    let (file, answer) = (file.display(), Answer::BadItem.number());
    format!("{file} is refused with {answer} at item {number}: {bad}.")
}

/// The sentence of a batch file that is refused with this answer; 9 is told with the item that is bad.
pub fn refused(file: &Path, bytes: &[u8], answer: Answer) -> String {
    let mut numbered = (1..).zip(items(bytes));
    match numbered.find_map(|(number, item)| Some((number, item.err()?))) {
        Some((number, bad)) if answer == Answer::BadItem => bad_item(file, number, bad),
        _ => refusal(&file.display().to_string(), answer),
    }
}
