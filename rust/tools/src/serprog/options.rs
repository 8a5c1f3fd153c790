//! The options of the serprog server; a bad one is refused with a sentence.

use std::ffi::{OsStr, OsString};
use std::path::{Display, Path, PathBuf};

use m25p::bus::MOST_CHIPS;
use m25p::{Durations, Part};

use super::parts::{name_of, names, row};

pub const USAGE: &str = "\
serprog --part NAME[,NAME]... [option]...   M25P or M25PE chips for flashrom, on a loopback port

  --part NAME        M25P10-A, M25P40, M25P32, M25P128, M25P10 or M25PE40, in capitals or small
                     letters; M25P10 is the older M25P10-A, without Read Identification. Up to
                     eight of them, parted by commas, are on one bus
  --select N         the chip that flashrom talks to, counted from 0; 0
  --image FILE       the contents: a raw file of the part's size, or an image in blocks, which the
                     command image makes; its length tells which. It is read at start and written
                     back in the same form when a client lets the pins go, when it has hung up,
                     and at the end (SIGINT or SIGTERM); one server has it at a time. With several
                     chips it is given once for each, in their order, or not at all
  --port N           0 to 65535; 0, the default, takes a free one
  --w 0|1            the level of the Write Protect pin W; 1
  --bp N             block protection at start, of the selected chip; 0
  --srwd 0|1         status register write disable at start, of the selected chip; 0
  --tick-us N        the length of a tick in microseconds; 1000
  --program N        ticks of a page program, a page write or a page erase; 2
  --sector-erase N   ticks of a sector erase or a subsector erase; 1000
  --bulk-erase N     ticks of a bulk erase; 10000
  --write-status N   ticks of a status write; 5
  --trace            print each transaction, wait and power loss as a line, with its answer, and
                     with the bits missing where an executed program wants bits 1 that are 0
  --warn-missing     say on standard error that an erase was missing: once, at the first such
                     program, with its page's address in hexadecimal and the bits missing
  --cut-after N      lose power in the N-th cycle (program, page write, erase or status write)
                     that a client starts, 1 to 1000000000, and have it back at once; a line on
                     standard error tells of it
  --seed S           what that loss leaves of the cycle, 0 to 4294967295; 1. With --cut-after only
";

#[derive(Clone, Debug, PartialEq, Eq)]
pub struct Options {
    /// The chips on the bus, one to eight.
    pub parts: Vec<Part>,
    /// The chip that clients talk to, counted from 0.
    pub select: usize,
    /// The contents of each chip, or none at all.
    pub images: Vec<PathBuf>,
    pub port: u16,
    pub w_high: bool,
    pub bp: u8,
    pub srwd: bool,
    pub tick_us: u32,
    pub durations: Durations,
    pub trace: bool,
    pub warn_missing: bool,
    pub cut_after: Option<u32>,
    pub seed: u32,
}

impl Options {
    /// The part with every other option at its default.
    pub fn of(part: Part) -> Options {
        Options {
            parts: vec![part],
            select: 0,
            images: Vec::new(),
            port: 0,
            w_high: true,
            bp: 0,
            srwd: false,
            tick_us: 1_000,
            durations: Durations::from([2, 1_000, 10_000, 5]),
            trace: false,
            warn_missing: false,
            cut_after: None,
            seed: 1,
        }
    }

    /// Reads the words behind the program's name.
    pub fn parse(words: impl IntoIterator<Item = OsString>) -> Result<Options, String> {
        let mut words = words.into_iter();
        let mut seen: Vec<OsString> = Vec::new();
        let mut parts = None;
        let mut options = Options::of(Part::M25p10a);
        while let Some(word) = words.next() {
            let Some(name) = word.to_str().filter(|name| KNOWN.contains(name)) else {
                return Err(format!("{} is not an option.", shown(&word)));
            };
            if name != "--image" && seen.contains(&word) {
                return Err(format!("{name} is given twice."));
            }
            let mut value = || words.next().ok_or(format!("{name} has no value."));
            match name {
                "--trace" => options.trace = true,
                "--warn-missing" => options.warn_missing = true,
                "--part" => parts = Some(row(&value()?)?),
                _ => options.set(name, &value()?)?,
            }
            seen.push(word);
        }
        options.parts = parts.ok_or(format!("--part is missing: {}.", names()))?;
        if options.cut_after.is_none() && seen.iter().any(|word| word == "--seed") {
            return Err("--seed is given without --cut-after.".to_string());
        }
        options.check()
    }

    fn set(&mut self, name: &str, value: &OsStr) -> Result<(), String> {
        let number = |least, most| number(name, value, least, most);
        let ticks = || number(1, 1_000_000);
        match name {
            "--select" => self.select = number(0, MOST_CHIPS as u32 - 1)? as usize,
            "--image" => self.images.push(PathBuf::from(value)),
            "--port" => self.port = number(0, 65_535)? as u16,
            "--w" => self.w_high = number(0, 1)? == 1,
            "--bp" => self.bp = number(0, 7)? as u8,
            "--srwd" => self.srwd = number(0, 1)? == 1,
            "--tick-us" => self.tick_us = number(1, 1_000_000_000)?,
            "--program" => self.durations.program = ticks()?,
            "--sector-erase" => self.durations.sector_erase = ticks()?,
            "--bulk-erase" => self.durations.bulk_erase = ticks()?,
            "--cut-after" => self.cut_after = Some(number(1, 1_000_000_000)?),
            "--seed" => self.seed = number(0, u32::MAX)?,
            _ => self.durations.write_status = ticks()?,
        }
        Ok(())
    }

    fn check(self) -> Result<Options, String> {
        let (chips, images) = (self.parts.len(), self.images.len());
        let Some(part) = self.parts.get(self.select) else {
            return Err(format!("--select is {}, not {}.", places(chips), self.select));
        };
        if images != 0 && images != chips {
            return Err(image_count(chips, images));
        }
        let highest = part.highest_bp();
        if self.bp > highest {
            let name = name_of(*part);
            return Err(format!("--bp is 0 to {highest} on the {name}, not {}.", self.bp));
        }
        Ok(self)
    }
}

/// The numbers of so many chips.
fn places(chips: usize) -> String {
    match chips {
        1 => "0 with one chip".to_string(),
        chips => format!("0 to {} with {chips} chips", chips - 1),
    }
}

/// The sentence of so many images for so many chips.
fn image_count(chips: usize, images: usize) -> String {
    if chips == 1 {
        return "--image is given twice.".to_string();
    }
    let times = if images == 1 { "once".to_string() } else { format!("{images} times") };
    format!(
        "--image is given {times} with {chips} chips; it is given for each of them, in their order, \
         or not at all."
    )
}

/// Every option.
pub const KNOWN: [&str; 16] = [
    "--part",
    "--select",
    "--image",
    "--port",
    "--w",
    "--bp",
    "--srwd",
    "--tick-us",
    "--program",
    "--sector-erase",
    "--bulk-erase",
    "--write-status",
    "--trace",
    "--warn-missing",
    "--cut-after",
    "--seed",
];

/// A word of the command line as text.
fn shown(word: &OsStr) -> Display<'_> {
    Path::new(word).display()
}

/// Decimal digits alone, within the limits.
fn number(name: &str, value: &OsStr, least: u32, most: u32) -> Result<u32, String> {
    let digits =
        value.to_str().filter(|text| text.bytes().all(|character| character.is_ascii_digit()));
    let number = digits.and_then(|digits| digits.parse().ok());
    let refusal = format!("{name} is {least} to {most}, not {}.", shown(value));
    number.filter(|number| (least..=most).contains(number)).ok_or(refusal)
}
