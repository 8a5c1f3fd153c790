//! The command line of `batch`; a bad one is refused with a sentence.

use std::ffi::OsString;
use std::path::{Path, PathBuf};

use m25p::{Durations, Part};

use crate::command::{both_same, part, same, ticks};
use crate::words::{exactly, Words};

pub const USAGE: &str = "\
Usage: batch write LINES OUT
       batch list FILE [--part PART]
       batch run PART FILE [--image IN] [--save OUT] [--responses OUT] [--durations P,S,B,W]

A batch file is a row of transactions and waits, its items; include/m25p.h has their bytes.

write        makes the file OUT of LINES (- for standard input), an item for each line, in the form
             of the bench program: 'x W bits hex' is a transaction, W 0 or 1, bits 0 to 7 further
             clock pulses, the bytes in hex ('x W bits' for none); 'w t' waits t ticks. Fields are
             parted by one space; a line ends with LF alone and has at most 600 characters. 'p',
             comments and empty lines have no place in a batch. A bad line is told by its number,
             and OUT stays as it was
list         prints a line for each item and carries nothing out: its number from 1 on, its name,
             the address as sent, +n for n bytes of data or answer behind these (dummy bytes do not
             count), 'W low', and 'pulses n' for further pulses. 'wait t' is a wait, '??' stands
             before a code that the part does not know, and 'no bytes' is a transaction without any
run          carries the items out on PART as delivered and prints the same lines with the answer:
             its number and 'executed' with up to 8 bytes of what was read, or 'ignored' and why.
             Then come the totals, the bits missing where an erase was missing, and whether a cycle
             is still running, whose change is not in the array then

PART         a number or a name, in any case: 0 bench, 1 M25P10-A, 2 M25P40, 3 M25P32, 4 M25P128,
             5 M25P10-A-older (without Read Identification), 6 M25PE40
--part       the part whose names are listed; if not given, those that the M25P40 has
--image      the array at the start, raw, or as an image in blocks, which the command image makes;
             the file's length tells which. All FF if not given
--save       writes the array as it is afterwards, in blocks if the file of --image is, else raw;
             this may be that file
--responses  writes what the chip drove, a byte for each byte sent, FF where it drove nothing
--durations  ticks of a program (and page write, page erase), sector erase (and subsector erase),
             bulk erase and status write; 3,5,9,2 if not given

A batch with a bad item is refused with 9 before anything is carried out, and nothing is written; the
item is told by its number, its place in the file and what is wrong. A list ends there. A result that
is there already is replaced. The exit status is 0 if all was done and printed.";

const NAME: &str = "batch";

/// What the command line asks for.
pub enum Request {
    Write { lines: PathBuf, out: PathBuf },
    List { file: PathBuf, part: Part },
    Run(Run),
}

/// What a run is asked for.
pub struct Run {
    pub part: Part,
    pub file: PathBuf,
    pub image: Option<PathBuf>,
    pub save: Option<PathBuf>,
    pub responses: Option<PathBuf>,
    pub durations: Durations,
}

impl Request {
    /// Reads the words behind the program's name.
    pub fn parse(words: impl IntoIterator<Item = OsString>) -> Result<Request, String> {
        let mut words = words.into_iter();
        let first = words.next().unwrap_or_default();
        match first.to_str() {
            Some("write") => Request::write(words),
            Some("list") => Request::list(words),
            Some("run") => Run::parse(words).map(Request::Run),
            _ => Err("The first word is write, list or run; batch --help says more.".into()),
        }
    }

    fn write(words: impl Iterator<Item = OsString>) -> Result<Request, String> {
        let Words { plain, .. } = Words::parse(NAME, words, [], [])?;
        let [lines, out] = exactly(NAME, plain, "Lines and a file to be made of them")?;
        match lines != Path::new("-") && same(&lines, &out) {
            true => Err("The lines would be written over.".into()),
            false => Ok(Request::Write { lines, out }),
        }
    }

    fn list(words: impl Iterator<Item = OsString>) -> Result<Request, String> {
        let Words { plain, values: [named], .. } = Words::parse(NAME, words, ["--part"], [])?;
        let [file] = exactly(NAME, plain, "A file")?;
        let part = named.map_or(Ok(Part::M25p40), |word| part(&word))?;
        Ok(Request::List { file, part })
    }
}

impl Run {
    fn parse(words: impl Iterator<Item = OsString>) -> Result<Run, String> {
        let names = ["--image", "--save", "--responses", "--durations"];
        let Words { plain, values, .. } = Words::parse(NAME, words, names, [])?;
        let [image, save, responses, durations] = values;
        let [part_word, file] = exactly(NAME, plain, "A part and a file")?;
        let [image, save, responses] = [image, save, responses].map(|word| word.map(PathBuf::from));
        let part = part(part_word.as_os_str())?;
        let durations = durations.map_or(Ok(Durations::default()), |word| ticks(&word))?;
        Run { part, file, image, save, responses, durations }.check()
    }

    /// Refuses to write over what was read, or two results into one; an image may be saved again.
    fn check(self) -> Result<Run, String> {
        if self.save.iter().chain(&self.responses).any(|path| same(path, &self.file)) {
            return Err("The batch file would be written over.".into());
        }
        if both_same(&self.responses, &self.image) {
            return Err("The image would be written over by the responses.".into());
        }
        match both_same(&self.save, &self.responses) {
            true => Err("The array and the responses would be one file.".into()),
            false => Ok(self),
        }
    }
}
