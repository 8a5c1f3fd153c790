//! The words of a command line: plain ones, options with a value, and flags; bad ones are refused with a sentence.

use std::ffi::OsString;
use std::path::PathBuf;

use crate::command::once;

/// The words of a command line: the plain ones, the values of the options that have these names, and which flags, which
/// have no value, are given.
pub struct Words<const V: usize, const F: usize> {
    pub plain: Vec<PathBuf>,
    pub values: [Option<OsString>; V],
    pub flags: [Option<()>; F],
}

impl<const V: usize, const F: usize> Words<V, F> {
    /// Reads the words of this program.
    pub fn parse(
        program: &str,
        mut words: impl Iterator<Item = OsString>,
        options: [&str; V],
        flags: [&str; F],
    ) -> Result<Words<V, F>, String> {
        let mut parted = Words { plain: Vec::new(), values: [const { None }; V], flags: [None; F] };
        while let Some(word) = words.next() {
            let name = word.to_string_lossy();
            let among = |known: &[&str]| known.iter().position(|known| *known == name);
            if let Some(at) = among(&options) {
                let value = words.next().ok_or(format!("{name} has no value."))?;
                once(&mut parted.values[at], &name, value)?;
            } else if let Some(at) = among(&flags) {
                once(&mut parted.flags[at], &name, ())?;
            } else if name.starts_with("--") {
                return Err(no_option(program, &name));
            } else {
                parted.plain.push(word.into());
            }
        }
        Ok(parted)
    }
}

/// The sentence of an option that a program has not, or not here.
pub fn no_option(program: &str, name: &str) -> String {
    format!("There is no option {name} here; {program} --help says more.")
}

/// Just so many plain words.
pub fn exactly<const N: usize>(
    program: &str,
    plain: Vec<PathBuf>,
    what: &str,
) -> Result<[PathBuf; N], String> {
    let needed = if N == 1 { "is" } else { "are" };
    let refusal = |_| format!("{what} {needed} needed, and no more; {program} --help says more.");
    plain.try_into().map_err(refusal)
}
