//! `yarrowbell sheet`

mod read;
mod write;

use crate::failure::{Failure, Out};
use clap::{Args, Subcommand};

/// Write a ring readout as a text sheet, which a spreadsheet opens, or read one back
///
/// A sheet has a line for each record behind the header clock,kind,channel,width_us,current_ma,code.
/// Both ways lose nothing: a sheet that is read and written again is the same, byte by byte.
#[derive(Args)]
#[command(after_help = "\
Examples, document 01's case 13:
  yarrowbell sheet write 026400000001C80028 0273000000032C011E 0291000000032C011E
  yarrowbell sheet read case13.csv")]
pub struct Sheet {
    #[command(subcommand)]
    task: Task,
}

#[derive(Subcommand)]
enum Task {
    Write(write::Write),
    Read(read::Read),
}

impl Sheet {
    pub fn run(self, out: Out) -> Result<(), Failure> {
        match self.task {
            Task::Write(write) => write.run(out),
            Task::Read(read) => read.run(out),
        }
    }
}
