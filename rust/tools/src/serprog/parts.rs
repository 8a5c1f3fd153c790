//! The parts that flashrom knows, by its names, and a row of them on one bus.

use std::ffi::OsStr;

use m25p::bus::MOST_CHIPS;
use m25p::Part;

/// The parts that flashrom knows, by its names. Its M25P10 is found by the signature alone, as the older
/// M25P10-A is.
pub const PARTS: [(&str, Part); 6] = [
    ("M25P10-A", Part::M25p10a),
    ("M25P40", Part::M25p40),
    ("M25P32", Part::M25p32),
    ("M25P128", Part::M25p128),
    ("M25P10", Part::M25p10aOlder),
    ("M25PE40", Part::M25pe40),
];

/// The parts of a row, whose names are parted by commas, or a sentence.
pub fn row(value: &OsStr) -> Result<Vec<Part>, String> {
    let names = value.to_string_lossy();
    let parts = names.split(',').enumerate().map(|(chip, name)| match name {
        "" => Err(format!("--part has no name for chip {chip}.")),
        name => named(name),
    });
    let parts = parts.collect::<Result<Vec<Part>, String>>()?;
    match parts.len() {
        ..=MOST_CHIPS => Ok(parts),
        chips => Err(format!("--part has {chips} chips; a bus has at most {MOST_CHIPS}.")),
    }
}

/// A part by flashrom's name, in any case.
fn named(wanted: &str) -> Result<Part, String> {
    let found = PARTS.into_iter().find(|(name, _)| name.eq_ignore_ascii_case(wanted));
    found.map(|(_, part)| part).ok_or_else(|| format!("--part is {}, not {wanted}.", names()))
}

/// flashrom's names, parted by commas and an 'or'.
pub fn names() -> String {
    let [first @ .., last] = PARTS.map(|(name, _)| name);
    format!("{} or {last}", first.join(", "))
}

/// flashrom's name of a part.
pub fn name_of(part: Part) -> &'static str {
    let known = PARTS.into_iter().find(|(_, known)| *known == part);
    known.map_or(part.name(), |(name, _)| name)
}
