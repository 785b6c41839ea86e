//! `yarrowbell sheet write`

use crate::bytes::Bytes;
use crate::failure::{Failure, Out};
use crate::output::Outputs;
use clap::Args;
use std::ffi::OsString;
use std::path::PathBuf;
use yarrowbell::sheet;

/// Print the text sheet of a ring readout
///
/// The clock is in tenths of a millisecond. An answer has its Ident in the column channel and its
/// number in the column code, a trip its cause in the column code. What a record lacks is empty.
#[derive(Args)]
#[command(after_help = "\
The readout's bytes are given as for yarrowbell trace. One that does not split into whole known
records is refused with answer 14, one with a number out of its range with answer 4: Ident is 0 to 3,
an answer 0 or 3 to 10, a channel 1 to 8, a width 10 to 500 µs, a current 1 to 127 mA, a cause 1 or 2.

Examples, document 01's case 13, printed and into a file:
  yarrowbell sheet write 026400000001C80028 0273000000032C011E 0291000000032C011E
  yarrowbell sheet write 026400000001C80028 0273000000032C011E 0291000000032C011E --out case13.csv")]
pub struct Write {
    /// The readout's bytes in hex; or one file that has them, or - for standard input
    #[arg(value_name = "HEX", required = true, value_parser = clap::value_parser!(OsString))]
    words: Vec<OsString>,

    /// Write it into this file instead of printing it
    #[arg(long, value_name = "OUT.csv")]
    out: Option<PathBuf>,
}

impl Write {
    pub fn run(self, out: Out) -> Result<(), Failure> {
        let given = Bytes::of_words_or_file(&self.words)?;
        let sheet = sheet::of(&given.all).map_err(|why| given.fault(why.at(), why))?;
        match &self.out {
            None => Ok(out.write_all(&sheet)?),
            Some(path) => {
                let read = given.file().map(|file| ("the readout", file));
                Outputs::new(read).plan(path)?.put(sheet, out)
            }
        }
    }
}
