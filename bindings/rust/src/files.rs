//! Files that are written whole or not at all.

use std::ffi::OsString;
use std::fs::{self, File, OpenOptions};
use std::io::{self, BufWriter, ErrorKind, Write};
use std::path::{Path, PathBuf};
use std::process;
use std::sync::atomic::{AtomicU64, Ordering};

use crate::error::{Error, Result};

type Writer = BufWriter<File>;

/// Has a function write a file, which takes its place once it is whole: if that fails, what was there stays. What is no plain
/// file, as a pipe or a device, is written straight.
pub(crate) fn written(path: &Path, write: impl FnOnce(&mut Writer) -> Result<()>) -> Result<()> {
    let unwritten = |error: io::Error| Error::unwritten(&error);
    match OpenOptions::new().write(true).open(path) {
        Err(error) if error.kind() == ErrorKind::NotFound => New::beside(path).map_err(unwritten)?.fill(path, write),
        Err(error) => Err(unwritten(error)),
        Ok(there) if !there.metadata().map_err(unwritten)?.is_file() => write(&mut BufWriter::new(there)),
        Ok(there) => {
            let place = fs::canonicalize(path).map_err(unwritten)?;
            let new = New::beside(&place).map_err(unwritten)?;
            let rights = there.metadata().map_err(unwritten)?.permissions();
            new.file.set_permissions(rights).map_err(unwritten)?;
            new.fill(&place, write)
        }
    }
}

/// A new file with a name beside its place. It is removed unless it gets there.
struct New {
    file: File,
    name: PathBuf,
}

/// How many names were made in this process.
static NAMES: AtomicU64 = AtomicU64::new(0);

impl New {
    fn beside(place: &Path) -> io::Result<New> {
        loop {
            let mut name = OsString::from(".");
            name.push(place.file_name().unwrap_or_default());
            name.push(format!(".{}.{}", process::id(), NAMES.fetch_add(1, Ordering::Relaxed)));
            let name = place.with_file_name(name);
            match OpenOptions::new().write(true).create_new(true).open(&name) {
                Err(error) if error.kind() == ErrorKind::AlreadyExists => {}
                opened => return opened.map(|file| New { file, name }),
            }
        }
    }

    /// Has a function write it, and gives it its place.
    fn fill(&self, place: &Path, write: impl FnOnce(&mut Writer) -> Result<()>) -> Result<()> {
        let unwritten = |error: io::Error| Error::unwritten(&error);
        let mut to = BufWriter::new(self.file.try_clone().map_err(unwritten)?);
        write(&mut to)?;
        to.flush().and_then(|()| self.file.sync_all()).map_err(unwritten)?;
        fs::rename(&self.name, place).map_err(unwritten)
    }
}

impl Drop for New {
    fn drop(&mut self) {
        // (where it has its place there is nothing to remove)
        let _ = fs::remove_file(&self.name);
    }
}
