//! What the commands `pins`, `batch`, `image` and `report` share: values of options, files, and the sentences of what
//! fails.

use std::ffi::{OsStr, OsString};
use std::os::unix::fs::MetadataExt;
use std::path::{Path, PathBuf};

use m25p::{Answer, Chip, Durations, Part, UnknownPart};

use crate::replace::write_result;

/// Takes the place of an option's value, unless it is taken.
pub fn once<T>(place: &mut Option<T>, name: &str, value: T) -> Result<(), String> {
    match place.replace(value) {
        None => Ok(()),
        Some(_) => Err(format!("{name} is given twice.")),
    }
}

/// A part by its number or its name.
pub fn part(word: &OsStr) -> Result<Part, String> {
    let text = word.to_string_lossy();
    let numbered = text.parse().ok().and_then(Part::numbered);
    numbered.map_or_else(|| text.parse(), Ok).map_err(|unknown: UnknownPart| unknown.to_string())
}

/// The part of an option that must be given; `what` says which part it is.
pub fn needed_part(program: &str, named: Option<OsString>, what: &str) -> Result<Part, String> {
    let missing = || format!("--part is missing: {what}; {program} --help says more.");
    part(&named.ok_or_else(missing)?)
}

/// Four durations, parted by commas.
pub fn ticks(word: &OsStr) -> Result<Durations, String> {
    let text = word.to_string_lossy();
    let numbers: Option<Vec<u32>> = text.split(',').map(|number| number.parse().ok()).collect();
    let four = numbers.and_then(|numbers| <[u32; 4]>::try_from(numbers).ok());
    four.map(Durations::from).ok_or(format!("{text} is not four durations such as 3,5,9,2."))
}

/// Whether two paths lead to one file, be it by links of either kind.
pub fn same(a: &Path, b: &Path) -> bool {
    a == b || known_same(place(a), place(b)) || known_same(file(a), file(b))
}

/// The same of paths that may not be given.
pub fn both_same(a: &Option<PathBuf>, b: &Option<PathBuf>) -> bool {
    a.as_ref().is_some_and(|a| b.as_ref().is_some_and(|b| same(a, b)))
}

fn known_same<T: PartialEq>(a: Option<T>, b: Option<T>) -> bool {
    a.is_some() && a == b
}

/// The file that a path leads to, by the numbers of device and file.
fn file(path: &Path) -> Option<(u64, u64)> {
    path.metadata().ok().map(|there| (there.dev(), there.ino()))
}

/// Where a path leads, to a file that is there or to one that is still to be made.
fn place(path: &Path) -> Option<PathBuf> {
    path.canonicalize().ok().or_else(|| {
        let directory = Path::new(".").join(path.parent()?);
        Some(directory.canonicalize().ok()?.join(path.file_name()?))
    })
}

/// The part as delivered.
pub fn deliver(part: Part, durations: Durations) -> Result<Chip, String> {
    Chip::deliver(part, durations).map_err(|answer| refusal("The delivery", answer))
}

/// All that a file has.
pub fn read(path: &Path) -> Result<Vec<u8>, String> {
    std::fs::read(path).map_err(|e| format!("{} cannot be read: {e}.", path.display()))
}

/// Writes a result, as a whole or not at all.
pub fn write(path: &Path, bytes: &[u8]) -> Result<(), String> {
    write_result(path, bytes).map_err(|e| format!("{} cannot be written: {e}.", path.display()))
}

/// The sentence of a refused call.
pub fn refusal(what: &str, answer: Answer) -> String {
    format!("{what} is refused with {}: {answer}.", answer.number())
}
