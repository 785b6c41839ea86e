//! Why a path cannot be written.

use std::io;
use thiserror::Error;

#[derive(Debug, Error)]
pub enum NotWritable {
    #[error("this names no file")]
    Nameless,
    #[error("its symbolic links lead round in a circle, or are too many")]
    Links,
    #[error("this is a directory")]
    Directory,
    #[error("this is a socket")]
    Socket,
    /// A disk, of which a picture would take the beginning.
    #[error("this is a block device")]
    BlockDevice,
    #[error("it is write-protected (mode {0:04o})")]
    Protected(u32),
    #[error("it is {0}")]
    Same(String),
    /// The file itself could be written, but not whole or not at all.
    #[error("no file can be made beside it: {0}")]
    Beside(io::Error),
    #[error(transparent)]
    System(#[from] io::Error),
}
