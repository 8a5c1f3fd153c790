//! The command `report`: batch files are carried out in order on one chip, and what came of all of them is told as a
//! table, as JSON and as a picture.

mod json;
mod options;
mod picture;
mod rows;
mod text;
mod week;

pub use json::Json;
pub use options::USAGE;
pub use picture::Picture;
pub use text::Table;
pub use week::{Refused, Week};

use std::ffi::OsString;
use std::io::{stderr, Write};
use std::path::PathBuf;

use crate::command::write;
use crate::contents::{deliver_with, Form};
use crate::program::Failure;
use crate::progress::Progress;
use options::Options;

/// Does what the words ask for; what is to be printed goes to `out`.
pub fn carry_out(
    words: impl IntoIterator<Item = OsString>,
    out: &mut impl Write,
) -> Result<(), Failure> {
    let options = Options::parse(words)?;
    let (chip, form) = deliver_with(options.part, options.durations, options.image.as_deref())?;
    let mut week = Week::new(chip);
    take_all(&mut week, &options.files);
    let kept = keep(&week, form, &options);
    let printed = match options.json {
        true => write!(out, "{}", Json(&week)),
        false => write!(out, "{}", Table(&week)),
    };
    kept?;
    printed?;
    match week.refused.is_empty() {
        true => Ok(()),
        false => Err(Failure::Bad),
    }
}

/// Carries the files out one after another; a refused one is named at once.
fn take_all(week: &mut Week, files: &[PathBuf]) {
    let mut progress = Progress::new();
    for (number, file) in (1..).zip(files) {
        progress.step(&format!("file {number} of {}, refused {}", files.len(), week.refused.len()));
        if let Err(refused) = week.take(file) {
            progress.clear();
            let _ = writeln!(stderr(), "{}", refused.sentence);
        }
    }
}

/// Writes the files that are asked for: the array in this form, and the picture, also where the array could not be
/// written.
fn keep(week: &Week, form: Form, options: &Options) -> Result<(), String> {
    let Options { part, save, svg, .. } = options;
    let array = || form.pack(*part, week.chip.array());
    let saved = save.as_ref().map_or(Ok(()), |path| write(path, &array()));
    let picture = || Picture(week).to_string();
    let drawn = svg.as_ref().map_or(Ok(()), |path| write(path, picture().as_bytes()));
    saved.and(drawn)
}
