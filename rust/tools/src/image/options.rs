//! The command line of `image`; a bad one is refused with a sentence.

use std::ffi::OsString;
use std::path::PathBuf;

use m25p::Part;

use crate::command::{needed_part, same};
use crate::words::{exactly, no_option, Words};

pub const USAGE: &str = "\
Usage: image write --part PART IN OUT [--force]
       image read --part PART IN OUT [--force]
       image check --part PART IN
       image salvage --part PART IN OUT [--force]

An image is the array of a chip for a disk: blocks of 512 bytes, each with its number, two sums and
504 bytes of the array, so that most damage is seen; include/m25p.h has the bytes.

write    makes the image OUT of IN, the array as raw bytes
read     makes OUT, the array as raw bytes, of the image IN. An image with a bad block is refused with
         33, the first one is named, and nothing is written
check    prints a line for each bad block: its place, from 0 on; 'wrong number' and the number that
         stands in it, or else 'wrong sums'; and which bytes of the array it has, from 0 on, in
         decimal and in hexadecimal. Two blocks that have each other's number may have been
         exchanged. Then come the totals
salvage  makes the image OUT, which is IN with a good block of FF in the place of each bad one, and
         prints the same lines with 'are lost' behind them. Good blocks stay as they are. OUT is
         written whether anything is lost or not, and can be read

PART     a number or a name, in any case: 0 bench, 1 M25P10-A, 2 M25P40, 3 M25P32, 4 M25P128,
         5 M25P10-A-older, 6 M25PE40. No part stands in an image: those of one size read each other's
--force  replaces OUT if it is there; without it, OUT must not be there

IN is never changed, and OUT is written as a whole or not at all. The exit status is 0 if all was done
and no block was bad, 2 if all was done and a check or a salvage found bad blocks, and 1 if not.";

const NAME: &str = "image";

/// What the command line asks for.
pub struct Request {
    pub task: Task,
    pub part: Part,
    pub input: PathBuf,
}

/// What is to be done with the input, and where the result goes.
pub enum Task {
    Write(Output),
    Read(Output),
    Check,
    Salvage(Output),
}

/// The file of a result.
pub struct Output {
    pub path: PathBuf,
    /// Whether it replaces one that is there.
    pub force: bool,
}

impl Request {
    /// Reads the words behind the program's name; options may stand anywhere among them.
    pub fn parse(words: impl IntoIterator<Item = OsString>) -> Result<Request, String> {
        let words = Words::parse(NAME, words.into_iter(), ["--part"], ["--force"])?;
        let Words { mut plain, values: [named], flags: [force] } = words;
        let first = if plain.is_empty() { PathBuf::new() } else { plain.remove(0) };
        let make: fn(Output) -> Task = match first.to_str() {
            Some("write") => Task::Write,
            Some("read") => Task::Read,
            Some("salvage") => Task::Salvage,
            Some("check") => return Request::check(plain, named, force),
            _ => {
                let tasks = "write, read, check or salvage";
                return Err(format!("The first word is {tasks}; image --help says more."));
            }
        };
        let [input, path] = exactly(NAME, plain, "A file to be read and one to be written")?;
        let part = needed(named)?;
        if same(&input, &path) {
            let (input, path) = (input.display(), path.display());
            return Err(format!("{path} is the same file as {input}, which is not to be changed."));
        }
        Ok(Request { task: make(Output { path, force: force.is_some() }), part, input })
    }

    /// A check writes no file.
    fn check(
        plain: Vec<PathBuf>,
        named: Option<OsString>,
        force: Option<()>,
    ) -> Result<Request, String> {
        if force.is_some() {
            return Err(no_option(NAME, "--force"));
        }
        let [input] = exactly(NAME, plain, "A file to be read")?;
        Ok(Request { task: Task::Check, part: needed(named)?, input })
    }
}

/// The part, which must be given.
fn needed(named: Option<OsString>) -> Result<Part, String> {
    needed_part(NAME, named, "the part that the image is of")
}
