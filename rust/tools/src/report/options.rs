//! The command line of `report`; a bad one is refused with a sentence.

use std::ffi::OsString;
use std::path::PathBuf;

use m25p::{Durations, Part};

use crate::command::{both_same, needed_part, same, ticks};
use crate::words::Words;

pub const USAGE: &str = "\
Usage: report --part PART FILE... [--image IN] [--save OUT] [--svg OUT] [--json]
              [--durations P,S,B,W]

Carries batch files, which the command batch makes, out in order on one chip, each from where the one
before has left it, and prints what came of all of them: how often each instruction was executed, how
often each answer came, the bytes that the chip drove, and the executed page programs of each sector
(PP; a page write is none), with a bar as long as its share of the most. Waits do not count.

A file that is refused, or cannot be read, is named on standard error with the number and why. It
counts for nothing and changes nothing: the next one goes on from where the one before it has left.
9 is a bad item, told with its place; 71 a total that 64 bits cannot hold.

PART         a number or a name, in any case: 0 bench, 1 M25P10-A, 2 M25P40, 3 M25P32, 4 M25P128,
             5 M25P10-A-older (without Read Identification), 6 M25PE40
--image      the array at the start, raw, or as an image in blocks, which the command image makes;
             the file's length tells which. All FF if not given
--save       writes the array as it is afterwards, in blocks if the file of --image is, else raw;
             this may be that file
--svg        writes a picture of the sectors, with a bar for each
--json       prints JSON in place of the table: part, taken (how many files), refused (file, answer,
             which is null where it could not be read, and sentence), transactions, driven_bytes,
             executed (code, name, count), answers (number, meaning, count), sectors (sector, first
             and last address, programs), and cycle_running (whether one is, whose change is not in
             the array). All numbers are exact; 64 bits may be needed
--durations  ticks of a program (and page write, page erase), sector erase (and subsector erase),
             bulk erase and status write; 3,5,9,2 if not given

A result that is there already is replaced. The exit status is 0 if all was done and every file taken,
2 if all was done and a file was refused or could not be read, and 1 if not.";

const NAME: &str = "report";

/// What the command line asks for.
pub struct Options {
    pub part: Part,
    pub files: Vec<PathBuf>,
    pub image: Option<PathBuf>,
    pub save: Option<PathBuf>,
    pub svg: Option<PathBuf>,
    pub json: bool,
    pub durations: Durations,
}

impl Options {
    /// Reads the words behind the program's name; options may stand anywhere among them.
    pub fn parse(words: impl IntoIterator<Item = OsString>) -> Result<Options, String> {
        let names = ["--part", "--image", "--save", "--svg", "--durations"];
        let words = Words::parse(NAME, words.into_iter(), names, ["--json"])?;
        let Words { plain: files, values, flags: [json] } = words;
        let [named, image, save, svg, durations] = values;
        if files.is_empty() {
            return Err("A batch file is needed, or several; report --help says more.".into());
        }
        let part = needed_part(NAME, named, "the part that the files are for")?;
        let durations = durations.map_or(Ok(Durations::default()), |word| ticks(&word))?;
        let [image, save, svg] = [image, save, svg].map(|word| word.map(PathBuf::from));
        Options { part, files, image, save, svg, json: json.is_some(), durations }.check()
    }

    /// Refuses to write over what was read, or two results into one; an image may be saved again.
    fn check(self) -> Result<Options, String> {
        let over = |file: &&PathBuf| self.save.iter().chain(&self.svg).any(|path| same(path, file));
        if let Some(file) = self.files.iter().find(over) {
            return Err(format!("The batch file {} would be written over.", file.display()));
        }
        if both_same(&self.svg, &self.image) {
            return Err("The image would be written over by the picture.".into());
        }
        match both_same(&self.save, &self.svg) {
            true => Err("The array and the picture would be one file.".into()),
            false => Ok(self),
        }
    }
}
