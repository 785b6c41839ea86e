//! Printing to a reader who may leave, as behind a pipe.

use super::unread;
use crate::failure::Out;
use std::io::{self, Write};

/// If files are yet to be written, a reader who has gone is passed over, so that they are written.
pub struct Leaving<'a> {
    out: Out<'a>,
    files: bool,
    gone: bool,
}

impl<'a> Leaving<'a> {
    pub fn new(out: Out<'a>, files: bool) -> Leaving<'a> {
        Leaving { out, files, gone: false }
    }

    /// What comes of printing, or this if nobody reads it any more.
    fn unless_gone<T: Copy>(
        &mut self,
        print: impl FnOnce(Out) -> io::Result<T>,
        unread_is: T,
    ) -> io::Result<T> {
        if self.gone {
            return Ok(unread_is);
        }
        print(self.out).or_else(|error| {
            if !self.files {
                return Err(error);
            }
            unread(error)?;
            self.gone = true;
            Ok(unread_is)
        })
    }
}

impl Write for Leaving<'_> {
    fn write(&mut self, bytes: &[u8]) -> io::Result<usize> {
        self.unless_gone(|out| out.write(bytes), bytes.len())
    }

    fn flush(&mut self) -> io::Result<()> {
        self.unless_gone(|out| out.flush(), ())
    }
}
