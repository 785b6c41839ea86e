//! The standard streams of this run, as files. Each is the stream by another number: what is written
//! to it goes behind what was written to the stream.

use std::fs::File;
use std::io;
use std::os::fd::AsFd;

pub fn input() -> io::Result<File> {
    again(io::stdin())
}

pub fn output() -> io::Result<File> {
    again(io::stdout())
}

pub fn error() -> io::Result<File> {
    again(io::stderr())
}

fn again(stream: impl AsFd) -> io::Result<File> {
    stream.as_fd().try_clone_to_owned().map(File::from)
}
