//! How a run can fail, and its exit status then.

use std::fmt::Display;
use std::io::{self, ErrorKind, Write};
use std::path::Path;
use std::process::ExitCode;
use thiserror::Error;

/// The program's own output.
pub type Out<'a> = &'a mut dyn io::Write;

#[derive(Debug, Error)]
pub enum Failure {
    #[error(transparent)]
    Input(#[from] BadInput),
    #[error("{0}")]
    Difference(#[from] soak::Failure),
    #[error("yarrowbell: cannot print: {0}")]
    Print(io::Error),
}

/// Where the input is bad, and what is wrong there.
#[derive(Debug, Error)]
#[error("{place}: {what}")]
pub struct BadInput {
    place: String,
    what: String,
}

impl BadInput {
    pub fn file(file: &Path, what: impl Display) -> BadInput {
        BadInput { place: file.display().to_string(), what: what.to_string() }
    }

    /// Lines are counted from 1.
    pub fn line(file: &Path, line: usize, what: impl Display) -> BadInput {
        BadInput { place: format!("{}:{line}", file.display()), what: what.to_string() }
    }

    pub fn argument(name: &str, what: impl Display) -> BadInput {
        BadInput { place: name.to_owned(), what: what.to_string() }
    }
}

/// A file that cannot be written says so in the error; any other is one of the program's own output.
impl From<io::Error> for Failure {
    fn from(error: io::Error) -> Failure {
        error.downcast().map_or_else(Failure::Print, Failure::Input)
    }
}

impl From<csv::Error> for Failure {
    fn from(error: csv::Error) -> Failure {
        Failure::from(match error.into_kind() {
            csv::ErrorKind::Io(error) => error,
            other => io::Error::other(format!("{other:?}")),
        })
    }
}

impl Failure {
    /// Says it on standard error, and hands back the exit status.
    pub fn told(self) -> ExitCode {
        let status = match &self {
            Failure::Print(error) if error.kind() == ErrorKind::BrokenPipe => {
                return ExitCode::SUCCESS
            }
            Failure::Difference(_) => 1,
            Failure::Input(_) => 2,
            Failure::Print(_) => 3,
        };
        say(self);
        ExitCode::from(status)
    }
}

/// Says it on standard error, whether or not somebody can hear it.
pub fn say(words: impl Display) {
    let _ = writeln!(io::stderr(), "{words}");
}
