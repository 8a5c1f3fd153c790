//! A file that is made or replaced as a whole or not at all: the new contents go into a file beside it and onto
//! the disk, and then this file takes its name.

use std::ffi::OsString;
use std::fs::{self, File, OpenOptions};
use std::io::{self, Write};
use std::path::{Path, PathBuf};

/// Replaces the file, or makes it; hands back the new one, open. `prepare` sees the new file while it is
/// empty. Where anything fails, the old file stays and the new one goes.
pub fn replace(
    path: &Path,
    bytes: &[u8],
    prepare: impl FnOnce(&File) -> io::Result<()>,
) -> io::Result<File> {
    put(path, bytes, prepare, |beside| fs::rename(beside, path))
}

/// Makes a file where there is nothing of its name; what is there stays, also if it has come only meanwhile, and that
/// is an error. `prepare` sees the new file while it is empty.
pub fn create(
    path: &Path,
    bytes: &[u8],
    prepare: impl FnOnce(&File) -> io::Result<()>,
) -> io::Result<()> {
    let name = |beside: &Path| match fs::hard_link(beside, path) {
        Ok(()) => fs::remove_file(beside),
        // Where the file system has no links, a look must do.
        Err(_) if fs::symlink_metadata(path).is_err() => fs::rename(beside, path),
        Err(e) => Err(e),
    };
    put(path, bytes, prepare, name).map(drop)
}

/// Writes a file beside the path, which `name` then gives its name; where anything fails, it goes.
fn put(
    path: &Path,
    bytes: &[u8],
    prepare: impl FnOnce(&File) -> io::Result<()>,
    name: impl FnOnce(&Path) -> io::Result<()>,
) -> io::Result<File> {
    let beside = beside(path);
    let mut file = OpenOptions::new().write(true).create_new(true).open(&beside)?;
    let finish = || {
        prepare(&file)?;
        file.write_all(bytes)?;
        file.sync_all()?;
        name(&beside)
    };
    if let Err(e) = finish() {
        let _ = fs::remove_file(&beside);
        return Err(e);
    }
    Ok(file)
}

/// Writes a result of a command. A file that is there keeps its permission bits, a link to it stays one,
/// and what is not a file, such as a device, is written to.
pub fn write_result(path: &Path, bytes: &[u8]) -> io::Result<()> {
    match fs::metadata(path) {
        Ok(there) if there.is_file() => {
            let path = fs::canonicalize(path)?;
            replace(&path, bytes, |new| new.set_permissions(there.permissions())).map(drop)
        }
        Ok(_) => fs::write(path, bytes),
        Err(e) if e.kind() == io::ErrorKind::NotFound => replace(path, bytes, |_| Ok(())).map(drop),
        Err(e) => Err(e),
    }
}

/// The name of the new file: in the same directory, and of this process alone.
fn beside(path: &Path) -> PathBuf {
    let mut name = OsString::from(path.file_name().unwrap_or_default());
    name.push(format!(".{}.new", std::process::id()));
    path.with_file_name(name)
}
