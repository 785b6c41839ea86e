//! `yarrowbell sheet read`

use crate::failure::{BadInput, Failure, Out};
use crate::hex;
use crate::input::Source;
use crate::output::Outputs;
use clap::Args;
use std::path::PathBuf;
use yarrowbell::sheet::{self, NotRead};

/// Print the bytes of a text sheet's records in hex, as a ring readout has them
///
/// A sheet that is not exactly as yarrowbell sheet write prints one is refused with answer 4 and the
/// number of its first bad line.
#[derive(Args)]
#[command(after_help = "\
Examples:
  yarrowbell sheet read case13.csv
  yarrowbell sheet read case13.csv --binary case13.readout")]
pub struct Read {
    /// The sheet; - for standard input
    #[arg(value_name = "FILE")]
    file: Source,

    /// Write the bytes themselves into this file instead of printing them in hex
    #[arg(long, value_name = "OUT")]
    binary: Option<PathBuf>,
}

impl Read {
    pub fn run(self, out: Out) -> Result<(), Failure> {
        let readout = sheet::readout(&self.file.bytes()?).map_err(|why| self.fault(&why))?;
        match &self.binary {
            None => Ok(writeln!(out, "{}", hex::spelt(&readout))?),
            Some(path) => {
                Outputs::new([("the sheet", self.file.path())]).plan(path)?.put(readout, out)
            }
        }
    }

    /// The first bad line, and what is at fault there.
    fn fault(&self, why: &NotRead) -> BadInput {
        match why {
            NotRead::BadLine { line, why: fault } => {
                let answer = why.answer();
                let what = format!("{fault} (answer {}: {answer})", answer.number());
                BadInput::line(self.file.name(), *line, what)
            }
            NotRead::OutputTooShort => BadInput::file(self.file.name(), why),
        }
    }
}
