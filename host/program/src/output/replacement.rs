//! A regular file, replaced whole or not at all.

use super::place;
use super::temporary::{self, Temporary};
use std::fs::{File, Metadata};
use std::io::{self, Read, Seek, SeekFrom, Write};
use std::os::unix::fs::{fchown, MetadataExt};
use std::path::PathBuf;

/// The new content lies beside the old one until it is whole.
pub struct Replacement {
    target: PathBuf,
    old: Option<File>,
    new: Temporary,
}

impl Replacement {
    /// Of a file that is not there yet: the system gives it the mode that it gives to new files.
    pub fn new(target: PathBuf) -> io::Result<Replacement> {
        let new = Temporary::new(place::folder(&target), 0o666)?;
        Ok(Replacement { target, old: None, new })
    }

    /// Of a file that is there, opened to be written. Until the new one has its mode it is the
    /// user's alone.
    pub fn of(old: File, target: PathBuf) -> io::Result<Replacement> {
        let new = Temporary::new(place::folder(&target), 0o600)?;
        Ok(Replacement { target, old: Some(old), new })
    }

    /// A file of several names, hard links, is written over in its place: a new one would have but
    /// one of the names. So is one that cannot be replaced, as in a folder where everyone may only
    /// remove what is his own, or where something is mounted on it.
    pub fn put(self) -> io::Result<()> {
        let file = self.new.file()?;
        let Some(old) = self.old else {
            file.sync_all()?;
            return self.new.rename(&self.target);
        };
        let was = old.metadata()?;
        if was.nlink() > 1 {
            return over(&old, &file);
        }
        keep_permissions(&was, &file)?;
        file.sync_all()?;
        self.new.rename(&self.target).or_else(|_| over(&old, &file))
    }
}

impl Write for Replacement {
    fn write(&mut self, bytes: &[u8]) -> io::Result<usize> {
        self.new.write(bytes)
    }

    fn flush(&mut self) -> io::Result<()> {
        self.new.flush()
    }
}

/// The mode, and the owner and the group as far as the system lets it. A disk that knows no modes
/// has nothing to set.
fn keep_permissions(was: &Metadata, file: &File) -> io::Result<()> {
    let _ = fchown(file, Some(was.uid()), Some(was.gid()))
        .or_else(|_| fchown(file, None, Some(was.gid())));
    if file.metadata()?.mode() == was.mode() {
        return Ok(());
    }
    file.set_permissions(was.permissions())
}

/// Writes the new content over the old. What needs more room goes first, and if there is none the
/// old content stays; a signal waits until all is written.
fn over(mut old: &File, mut new: &File) -> io::Result<()> {
    let _undisturbed = temporary::there();
    let (was, is) = (old.metadata()?.len(), new.metadata()?.len());
    let mut copy = |from: u64, to: u64| {
        old.seek(SeekFrom::Start(from))?;
        new.seek(SeekFrom::Start(from))?;
        io::copy(&mut new.take(to - from), &mut old)
    };
    if is > was {
        if let Err(error) = copy(was, is) {
            old.set_len(was)?;
            return Err(error);
        }
    }
    copy(0, was.min(is))?;
    old.set_len(is)?;
    old.sync_all()
}
