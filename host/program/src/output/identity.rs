//! Which file it is, whatever it is called.

use std::ffi::OsString;
use std::fs::{self, Metadata};
use std::io;
use std::os::unix::fs::{FileTypeExt, MetadataExt};
use std::path::Path;

/// Of a file that is there its device and its number on it; of one that is not there yet those of
/// its folder, and its name.
#[derive(PartialEq, Eq)]
pub struct Identity {
    device: u64,
    inode: u64,
    name: Option<OsString>,
}

impl Identity {
    /// None of a terminal, `/dev/null` and the like: they hold nothing that could be harmed, and so
    /// may be read and written in one run.
    pub fn of(metadata: &Metadata) -> Option<Identity> {
        let kind = metadata.file_type();
        let holds = kind.is_file() || kind.is_fifo();
        holds.then(|| Identity { device: metadata.dev(), inode: metadata.ino(), name: None })
    }

    pub fn of_new(folder: &Path, name: OsString) -> io::Result<Identity> {
        let folder = fs::metadata(folder)?;
        Ok(Identity { device: folder.dev(), inode: folder.ino(), name: Some(name) })
    }
}
