//! `yarrowbell trace`

mod json;
mod marks;
mod readout;
mod told;

use crate::bytes::Bytes;
use crate::failure::{Failure, Out};
use crate::{number, words};
use clap::Args;
use readout::Tail;
use std::ffi::OsString;

/// Print the records of a ring readout, one line each
///
/// A line has the byte at which the record begins, counted from 0, the clock in tenths of a
/// millisecond and in milliseconds, and what the record says. What no unit writes is marked.
#[derive(Args)]
#[command(after_help = "\
Bytes in hex may have 0x before them, and spaces, line ends, a comma or a colon between them. In a
file # begins a comment. A file is taken as the bytes themselves if it is no text: not UTF-8, or with
a control character other than tab, line feed, form feed and carriage return. A file whose name is
hex digits is given as ./C0.

Examples, document 01's case 13 and a ring of 16 bytes in which a pulse goes round:
  yarrowbell trace 026400000001C80028 0273000000032C011E 0291000000032C011E
  yarrowbell trace 00000001C80028 00000000000000 0264 --start 14 --used 9")]
pub struct Trace {
    /// The readout's bytes in hex; or one file that has them, or - for standard input
    #[arg(value_name = "HEX", required = true, value_parser = clap::value_parser!(OsString))]
    words: Vec<OsString>,

    /// Print each record as JSON, one object in a line
    #[arg(long)]
    json: bool,

    /// The bytes are the ring's whole memory, and its records begin at this one, counted from 0
    #[arg(long, value_name = "S", requires = "used")]
    #[arg(value_parser = number::start, allow_negative_numbers = true)]
    start: Option<usize>,

    /// How many bytes the records have from there on, round at the memory's end
    #[arg(long, value_name = "N", requires = "start")]
    #[arg(value_parser = number::used, allow_negative_numbers = true)]
    used: Option<usize>,
}

impl Trace {
    pub fn run(self, out: Out) -> Result<(), Failure> {
        let given = Bytes::of_words_or_file(&self.words)?;
        let records = match self.start.zip(self.used) {
            Some((start, used)) => Tail { start, used }.of(&given)?,
            None => readout::of(&given)?,
        };
        let marks = marks::of(&records);
        let mut marked = records.iter().zip(&marks);
        if self.json {
            return marked.try_for_each(|(record, marks)| json::print(record, marks, out));
        }
        if records.is_empty() {
            return Ok(writeln!(out, "no records")?);
        }
        writeln!(out, "{:>4}  {}  record", "at", words::TIME)?;
        for (record, marks) in marked {
            let (at, time) = (record.at, words::time(record.clock));
            writeln!(out, "{at:>4}  {time}  {}{}", told::body(record.body), told::marks(marks))?;
        }
        Ok(())
    }
}
