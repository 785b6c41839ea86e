//! Where a path leads, its symbolic links followed.

use super::not_writable::NotWritable;
use super::standard;
use std::fs::{self, File};
use std::io;
use std::path::{Path, PathBuf};

pub enum Place {
    /// Standard output or standard error.
    Standard(File),
    /// What a run holds open, under the system's name for it: that of `/dev/fd/3`.
    Open(PathBuf),
    /// A name that is no symbolic link. A file is there, or may be made there.
    Named(PathBuf),
}

/// As many links one behind the other as Linux follows.
const LINKS: usize = 40;

impl Place {
    pub fn of(path: &Path) -> Result<Place, NotWritable> {
        let mut place = path.to_owned();
        for _ in 0..=LINKS {
            let Ok(to) = fs::read_link(&place) else { return Ok(Place::Named(place)) };
            let folder = folder(&place).canonicalize()?;
            if folder.starts_with("/proc") && folder.ends_with("fd") {
                return Ok(Place::open(&folder, place)?);
            }
            place = folder.join(to);
        }
        Err(NotWritable::Links)
    }

    /// What is held open under a number, which is the name in this folder.
    fn open(folder: &Path, place: PathBuf) -> io::Result<Place> {
        let own = folder.starts_with(fs::canonicalize("/proc/self")?);
        Ok(match place.file_name().and_then(|name| name.to_str()) {
            Some("1") if own => Place::Standard(standard::output()?),
            Some("2") if own => Place::Standard(standard::error()?),
            _ => Place::Open(place),
        })
    }
}

/// The folder in which a path names something.
pub fn folder(path: &Path) -> &Path {
    match path.parent() {
        Some(parent) if parent != Path::new("") => parent,
        _ => Path::new("."),
    }
}
