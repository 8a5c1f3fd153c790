//! The command `image`: a chip's contents as an image for the disk, which is made, read, checked and salvaged.

mod files;
mod options;
mod text;

pub use options::USAGE;

use std::ffi::OsString;
use std::io::Write;
use std::path::Path;

use m25p::image::salvage;
use m25p::Part;

use crate::command::refusal;
use crate::contents::Form;
use crate::program::Failure;
use crate::progress::Progress;
use files::take;
use options::{Output, Request, Task};
use text::{Found, Totals};

/// Does what the words ask for; what is to be printed goes to `out`.
pub fn carry_out(
    words: impl IntoIterator<Item = OsString>,
    out: &mut impl Write,
) -> Result<(), Failure> {
    let Request { task, part, input } = Request::parse(words)?;
    match task {
        Task::Write(output) => convert(part, (&input, Form::Raw), (&output, Form::Blocks), out),
        Task::Read(output) => convert(part, (&input, Form::Blocks), (&output, Form::Raw), out),
        Task::Check => examine(part, &input, None, out),
        Task::Salvage(output) => examine(part, &input, Some(&output), out),
    }
}

/// Makes the contents in one form of those in another; an image with a bad block is refused.
fn convert(
    part: Part,
    (input, from): (&Path, Form),
    (output, to): (&Output, Form),
    out: &mut impl Write,
) -> Result<(), Failure> {
    output.free()?;
    let mut progress = Progress::new();
    let bytes = take(input, from, part, &mut progress)?;
    progress.step(&format!("converting {} blocks", part.blocks()));
    let array = from.unpack(part, bytes, &input.display().to_string())?;
    let bytes = to.pack(part, &array);
    output.put(&bytes, &mut progress)?;
    drop(progress);
    Ok(writeln!(out, "blocks {}, bytes {}", part.blocks(), bytes.len())?)
}

/// Prints the bad blocks of an image, which are a failure, and the totals; the salvaged image becomes the output, if
/// there is to be one.
fn examine(
    part: Part,
    input: &Path,
    output: Option<&Output>,
    out: &mut impl Write,
) -> Result<(), Failure> {
    output.map_or(Ok(()), Output::free)?;
    let mut progress = Progress::new();
    let image = take(input, Form::Blocks, part, &mut progress)?;
    progress.step(&format!("checking {} blocks", part.blocks()));
    let mut salvaged = image.clone();
    let bad = salvage(part, &mut salvaged)
        .map_err(|answer| refusal(&input.display().to_string(), answer))?;
    if let Some(output) = output {
        output.put(&salvaged, &mut progress)?;
    }
    drop(progress);
    let lost = if output.is_some() { " are lost" } else { "" };
    for bad in &bad {
        writeln!(out, "{}{lost}", Found { part, image: &image, bad })?;
    }
    writeln!(out, "{}", Totals { part, bad: &bad, salvaged: output.is_some() })?;
    if bad.is_empty() {
        Ok(())
    } else {
        Err(Failure::Bad)
    }
}
