//! Files that are written. What lies at their paths is not harmed: a regular file is replaced whole
//! or not at all, and what is none is written to and stays what it is.

mod identity;
mod known;
mod leaving;
mod not_writable;
mod outputs;
mod place;
mod replacement;
mod signals;
mod standard;
mod temporary;

use crate::failure::{BadInput, Failure, Out};
use replacement::Replacement;
use std::fmt::Display;
use std::fs::File;
use std::io::{self, ErrorKind, Write};
use std::path::{Path, PathBuf};

pub use leaving::Leaving;
pub use outputs::Outputs;

/// A file that is being written. Dropped before it is finished, it leaves nothing, and what stood
/// at its path stays there.
pub struct Output {
    path: PathBuf,
    to: To,
}

enum To {
    /// A device, a pipe, or a file that the run was handed open: bytes go straight there.
    Stream(File),
    /// Standard output or standard error: bytes wait until all is printed.
    Standard(File, Vec<u8>),
    Replacement(Replacement),
}

impl Output {
    /// Writes all of it at once.
    pub fn put(mut self, content: impl AsRef<[u8]>, out: Out) -> Result<(), Failure> {
        self.write_all(content.as_ref())?;
        self.finish(out)
    }

    /// Puts what was written in its place: behind what was printed, if both go to one.
    pub fn finish(self, out: Out) -> Result<(), Failure> {
        out.flush()?;
        match self.to {
            To::Stream(_) => Ok(()),
            To::Standard(mut file, bytes) => file.write_all(&bytes).or_else(unread),
            To::Replacement(replacement) => replacement.put(),
        }
        .map_err(|error| cannot(&self.path, error).into())
    }
}

/// An error has the failure in it that it comes to, a `BadInput` with the path.
impl Write for Output {
    fn write(&mut self, bytes: &[u8]) -> io::Result<usize> {
        match &mut self.to {
            To::Stream(file) => {
                file.write(bytes).or_else(|error| unread(error).map(|()| bytes.len()))
            }
            To::Standard(_, waiting) => waiting.write(bytes),
            To::Replacement(replacement) => replacement.write(bytes),
        }
        .map_err(|error| io::Error::new(error.kind(), cannot(&self.path, error)))
    }

    /// Nothing waits here.
    fn flush(&mut self) -> io::Result<()> {
        Ok(())
    }
}

/// A reader who has gone is no failure: the rest goes nowhere.
fn unread(error: io::Error) -> io::Result<()> {
    match error.kind() {
        ErrorKind::BrokenPipe => Ok(()),
        _ => Err(error),
    }
}

fn cannot(path: &Path, why: impl Display) -> BadInput {
    BadInput::file(path, format!("cannot be written: {why}"))
}

#[cfg(test)]
mod tests;
