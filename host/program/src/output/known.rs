//! The files that a run reads and writes. None of them is two.

use super::identity::Identity;
use super::not_writable::NotWritable;
use super::standard;
use std::fs::{self, Metadata};
use std::io;
use std::path::{Path, PathBuf};

pub struct KnownFiles(Vec<Known>);

/// Which file it is, what it is to the run, and how it was named.
struct Known {
    identity: Identity,
    what: String,
    path: PathBuf,
}

impl KnownFiles {
    /// Those that it reads, each with what it is. `-` is standard input.
    pub fn read<'a>(inputs: impl IntoIterator<Item = (&'a str, &'a Path)>) -> KnownFiles {
        let known = inputs.into_iter().filter_map(|(what, path)| {
            let identity = Identity::of(&metadata(path).ok()?)?;
            Some(Known { identity, what: format!("{what} that is read"), path: path.to_owned() })
        });
        KnownFiles(known.collect())
    }

    /// One that it writes, unless it reads or writes it already.
    pub fn write(&mut self, path: &Path, identity: Option<Identity>) -> Result<(), NotWritable> {
        let Some(identity) = identity else { return Ok(()) };
        if let Some(known) = self.0.iter().find(|known| known.identity == identity) {
            return Err(NotWritable::Same(known.told(path)));
        }
        let what = "another output".to_owned();
        self.0.push(Known { identity, what, path: path.to_owned() });
        Ok(())
    }
}

impl Known {
    /// What it is, to someone who named it by this path.
    fn told(&self, path: &Path) -> String {
        let Known { what, path: named, .. } = self;
        if named == path || named == Path::new("-") {
            what.clone()
        } else {
            format!("{what}, {}", named.display())
        }
    }
}

fn metadata(path: &Path) -> io::Result<Metadata> {
    if path == Path::new("-") {
        standard::input()?.metadata()
    } else {
        fs::metadata(path)
    }
}
