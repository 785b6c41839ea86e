//! Files that are there for a while, under names of their own.

use super::signals;
use std::fs::File;
use std::io::{self, ErrorKind, Write};
use std::os::unix::fs::OpenOptionsExt;
use std::path::{Path, PathBuf};
use std::sync::{Mutex, MutexGuard, PoisonError};
use std::{mem, process};
use tempfile::TempPath;

/// Removed when it is dropped, unless it was renamed, and when a signal ends the run. KILL cannot be
/// caught and leaves it: its name tells whose it was.
pub struct Temporary {
    file: File,
    path: PathBuf,
}

/// Those that are there. No signal ends the run while this is locked.
static THERE: Mutex<There> = Mutex::new(There { watched: false, paths: Vec::new() });

pub struct There {
    /// Whether signals are watched for.
    watched: bool,
    paths: Vec<TempPath>,
}

pub fn there() -> MutexGuard<'static, There> {
    THERE.lock().unwrap_or_else(PoisonError::into_inner)
}

impl Temporary {
    /// The mode is less what the user's mask takes away, as of any new file; one that `tempfile`
    /// makes is the user's alone.
    pub fn new(folder: &Path, mode: u32) -> io::Result<Temporary> {
        let mut there = there();
        if !there.watched {
            signals::before_end(remove_all)?;
            there.watched = true;
        }
        let mut count = 0;
        loop {
            let path = folder.join(format!(".yarrowbell-{}-{count}", process::id()));
            let made =
                File::options().read(true).write(true).create_new(true).mode(mode).open(&path);
            match made {
                Ok(file) => {
                    there.paths.push(TempPath::from_path(&path));
                    return Ok(Temporary { file, path });
                }
                Err(error) if error.kind() == ErrorKind::AlreadyExists => count += 1,
                Err(error) => return Err(error),
            }
        }
    }

    /// The file itself, which can be read when its name is gone.
    pub fn file(&self) -> io::Result<File> {
        self.file.try_clone()
    }

    pub fn rename(self, to: &Path) -> io::Result<()> {
        let mut there = there();
        let path = there.take(&self.path).expect("it is there until it is dropped");
        path.persist(to).map_err(|not| not.error)
    }
}

impl Write for Temporary {
    fn write(&mut self, bytes: &[u8]) -> io::Result<usize> {
        self.file.write(bytes)
    }

    fn flush(&mut self) -> io::Result<()> {
        self.file.flush()
    }
}

impl Drop for Temporary {
    fn drop(&mut self) {
        there().take(&self.path);
    }
}

impl There {
    fn take(&mut self, path: &Path) -> Option<TempPath> {
        let at = self.paths.iter().position(|there| **there == *path)?;
        Some(self.paths.swap_remove(at))
    }
}

/// And locks, so that none is made or renamed any more.
fn remove_all() {
    let mut there = there();
    there.paths.clear();
    mem::forget(there);
}
