//! The command line of `pins`; a bad one is refused with a sentence.

use std::ffi::OsString;
use std::path::PathBuf;

use m25p::{Durations, Part};

use crate::command::{once, part, same, ticks};

pub const USAGE: &str = "\
Usage: pins PART FILE [--output OUT] [--vcd OUT.vcd [--pulled-up]] [--durations P,S,B,W]

PART         a number or a name, in any case: 0 bench, 1 M25P10-A, 2 M25P40, 3 M25P32, 4 M25P128,
             5 M25P10-A-older (without Read Identification), 6 M25PE40
FILE         one byte for each sample: bit 0 Chip Select, 1 clock, 2 data in, 3 W, 4 Hold
--output     writes one byte for each sample: the output after it, 0 or 1, or 2 for not driven
--vcd        writes the five pins and the output for GTKWave or PulseView
--pulled-up  writes an output that is not driven as 1 into the dump, as a pull-up resistor makes
             it, and not as z: PulseView and sigrok take z for 0, so that an ignored READ decodes
             as 00 and not as FF
--durations  ticks of a program (and page write, page erase), sector erase (and subsector erase),
             bulk erase and status write; 3,5,9,2 if not given

The part is as delivered. A result that is there already is replaced.";

/// What the command line asks for.
pub struct Options {
    pub part: Part,
    pub file: PathBuf,
    pub output: Option<PathBuf>,
    pub vcd: Option<PathBuf>,
    pub pulled_up: bool,
    pub durations: Durations,
}

impl Options {
    /// Reads the words behind the program's name.
    pub fn parse(words: impl IntoIterator<Item = OsString>) -> Result<Options, String> {
        let mut plain = Vec::new();
        let (mut output, mut vcd, mut durations, mut pulled_up) = (None, None, None, false);
        let mut rest = words.into_iter();
        while let Some(word) = rest.next() {
            let name = word.to_string_lossy().into_owned();
            let mut value = || rest.next().ok_or(format!("{name} has no value."));
            match name.as_str() {
                "--output" => once(&mut output, &name, value()?.into())?,
                "--vcd" => once(&mut vcd, &name, value()?.into())?,
                "--durations" => once(&mut durations, &name, ticks(&value()?)?)?,
                "--pulled-up" => pulled_up = true,
                option if option.starts_with("--") => {
                    return Err(format!("There is no option {option}; pins --help says more."))
                }
                _ => plain.push(word),
            }
        }
        let [part_word, file] = &plain[..] else {
            return Err("A part and a file are needed, and no more; pins --help says more.".into());
        };
        let durations = durations.unwrap_or_default();
        let (part, file) = (part(part_word)?, file.into());
        Options { part, file, output, vcd, pulled_up, durations }.check()
    }

    /// Refuses to write over the probe's file, or two results into one.
    fn check(self) -> Result<Options, String> {
        if self.pulled_up && self.vcd.is_none() {
            return Err("--pulled-up is about the dump and needs --vcd.".into());
        }
        if self.output.iter().chain(&self.vcd).any(|path| same(path, &self.file)) {
            return Err("The probe's file would be written over.".into());
        }
        match (&self.output, &self.vcd) {
            (Some(output), Some(vcd)) if same(output, vcd) => {
                Err("The output and the dump would be one file.".into())
            }
            _ => Ok(self),
        }
    }
}
