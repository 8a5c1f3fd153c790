//! The image file: the array, raw or in blocks, of one server alone, replaced as a whole or not at all.

use std::ffi::c_int;
use std::fs::{self, File};
use std::io;
use std::os::fd::AsRawFd;
use std::os::unix::fs::MetadataExt;
use std::path::{Path, PathBuf};

use m25p::Part;

use crate::contents::{array_in, form_of, Form};
use crate::replace::replace;

pub struct Image {
    /// With every link followed, so that a link stays one.
    path: PathBuf,
    part: Part,
    /// How the array stands in the file, which stays so.
    form: Form,
    /// The array that the file has.
    saved: Vec<u8>,
    /// The file, open and locked, so that no second server takes it.
    file: File,
}

impl Image {
    /// Reads a file of the part's size, or an image in blocks of it, and locks it, or says in a sentence why it can't.
    pub fn open(path: &Path, part: Part) -> Result<Image, String> {
        let unread = |e: io::Error| format!("The image {} can't be read: {e}.", path.display());
        let path = fs::canonicalize(path).map_err(unread)?;
        let metadata = fs::metadata(&path).map_err(unread)?;
        if !metadata.is_file() {
            return Err(format!("The image {} is not a file.", path.display()));
        }
        form_of(part, metadata.len(), &path)?;
        let taken = || format!("The image {} is in use by another server.", path.display());
        let file = open_locked(&path).map_err(unread)?.ok_or_else(taken)?;
        let (form, saved) = array_in(part, fs::read(&path).map_err(unread)?, &path)?;
        Ok(Image { path, part, form, saved, file })
    }

    pub fn contents(&self) -> &[u8] {
        &self.saved
    }

    /// Writes the array back, in the file's form, if it is not what the file has. The new file is locked before it
    /// takes the image's name, so the image is never without a lock.
    pub fn store(&mut self, array: &[u8]) -> Result<(), String> {
        if self.saved == array {
            return Ok(());
        }
        let prepare = |new: &File| {
            new.set_permissions(fs::metadata(&self.path)?.permissions())?;
            lock(new).map(drop)
        };
        let replaced = replace(&self.path, &self.form.pack(self.part, array), prepare);
        self.file = replaced.map_err(|e| {
            format!("The image {} can't be written and stays as it was: {e}.", self.path.display())
        })?;
        self.saved.copy_from_slice(array);
        Ok(())
    }
}

/// Opens and locks the file; none if another server has it. Where a server has put a new file in its
/// place between the two, the new one is tried.
fn open_locked(path: &Path) -> io::Result<Option<File>> {
    loop {
        let file = File::open(path)?;
        if !lock(&file)? {
            return Ok(None);
        }
        let (opened, there) = (file.metadata()?, fs::metadata(path)?);
        if (opened.dev(), opened.ino()) == (there.dev(), there.ino()) {
            return Ok(Some(file));
        }
    }
}

/// Locks an open file until it is closed; false if it is locked already.
fn lock(file: &File) -> io::Result<bool> {
    extern "C" {
        fn flock(file: c_int, operation: c_int) -> c_int;
    }
    const EXCLUSIVE: c_int = 2;
    const AT_ONCE: c_int = 4;
    if unsafe { flock(file.as_raw_fd(), EXCLUSIVE | AT_ONCE) } == 0 {
        return Ok(true);
    }
    match io::Error::last_os_error() {
        e if e.kind() == io::ErrorKind::WouldBlock => Ok(false),
        e => Err(e),
    }
}
