//! The files of the command `image`: one that is read and never changed, and one that is written as a whole.

use std::fs;
use std::io;
use std::path::Path;

use m25p::Part;

use super::options::Output;
use crate::command::read;
use crate::contents::Form;
use crate::progress::Progress;
use crate::replace::{create, write_result};

/// All that a file has; it must have the length of the part's contents in this form.
pub fn take(
    path: &Path,
    form: Form,
    part: Part,
    progress: &mut Progress,
) -> Result<Vec<u8>, String> {
    let unread = |e| format!("{} cannot be read: {e}.", path.display());
    let there = fs::metadata(path).map_err(unread)?;
    if !there.is_file() {
        return Err(no_file(path));
    }
    let check = |length| match length == form.bytes(part) as u64 {
        true => Ok(()),
        false => Err(form.wrong_length(part, length, path)),
    };
    check(there.len())?;
    progress.step(&format!("reading {} bytes", form.bytes(part)));
    let bytes = read(path)?;
    check(bytes.len() as u64).map(|()| bytes)
}

fn no_file(path: &Path) -> String {
    format!("{} is not a file.", path.display())
}

impl Output {
    /// Whether it can be written: nothing is there, or a file that is to be replaced.
    pub fn free(&self) -> Result<(), String> {
        let shown = self.path.display();
        match fs::metadata(&self.path) {
            Ok(there) if !there.is_file() => Err(no_file(&self.path)),
            _ if self.force || !self.is_taken() => Ok(()),
            _ => Err(format!("{shown} is there already; --force replaces it.")),
        }
    }

    /// Whether there is anything of this name, a link to nothing too.
    fn is_taken(&self) -> bool {
        fs::symlink_metadata(&self.path).is_ok()
    }

    /// Writes the result. One that has come since it was free stays.
    pub fn put(&self, bytes: &[u8], progress: &mut Progress) -> Result<(), String> {
        progress.step(&format!("writing {} bytes", bytes.len()));
        let written = match self.force {
            true => write_result(&self.path, bytes),
            false => create(&self.path, bytes, |_| Ok(())),
        };
        written.or_else(|e: io::Error| {
            self.free()?;
            Err(format!("{} cannot be written: {e}.", self.path.display()))
        })
    }
}
