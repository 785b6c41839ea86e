//! `yarrowbell read`

mod check;
mod end;
mod fields;
mod json;
pub mod keyed;
mod reading;
mod rows;

use crate::bytes::Bytes;
use crate::failure::{BadInput, Failure, Out};
use crate::{number, words};
use clap::Args;
pub use reading::Reading;
use std::ffi::OsString;
use std::process::ExitCode;
use yarrowbell::Answer;

/// Read one frame: its bits, its fields, its check, and the answer to it
///
/// Prints the bits of each byte with the fields that they belong to, the value of each field, the
/// check worked out, and the proved reader's answer with the reply byte. A frame that it refuses is
/// shown as far as its bytes go.
#[derive(Args)]
#[command(after_help = "\
Without --channels the bytes tell how many channels an Update lists, 1 to 8: three bytes for each,
up to the next byte with bit 7 set or to the end. If they are no multiple of three, the last channel
is taken as listed, with bytes missing.

Bytes in hex may have 0x before them, and spaces, a comma or a colon between them. Standard input is
hex too, with # before a comment, or the bytes themselves if it is no text.

Examples:
  yarrowbell read E2 21 48 78
  yarrowbell read BB014828222C1E --channels 2
  yarrowbell read C0 --json --check")]
pub struct Read {
    /// The frame's bytes in hex, or - for standard input; those after the frame are not used
    #[arg(value_name = "HEX", required = true, value_parser = clap::value_parser!(OsString))]
    words: Vec<OsString>,

    /// How many channels are listed, 1 to 8: an Update's length depends on it
    #[arg(long, value_name = "N")]
    #[arg(value_parser = number::listed, allow_negative_numbers = true)]
    channels: Option<u8>,

    /// Print what is in the frame as JSON, one object in a line
    #[arg(long)]
    json: bool,

    /// Exit with status 1 if the frame is refused: if its answer is not 0
    #[arg(long)]
    check: bool,
}

impl Read {
    pub fn run(self, out: Out) -> Result<ExitCode, Failure> {
        let bytes = self.bytes()?;
        let reading = Reading::of(&bytes, self.channels.map(usize::from));
        if self.json {
            json::print(&reading, out)?;
        } else {
            print(&reading, out)?;
        }
        let refused = self.check && reading.answer != Answer::Done;
        Ok(if refused { ExitCode::FAILURE } else { ExitCode::SUCCESS })
    }

    /// There is at least one.
    fn bytes(&self) -> Result<Vec<u8>, BadInput> {
        let given = Bytes::of_words(&self.words)?;
        if given.all.is_empty() {
            return Err(given.fault(None, "no bytes"));
        }
        Ok(given.all)
    }
}

fn print(reading: &Reading, out: Out) -> Result<(), Failure> {
    let sections = [
        vec![head(reading)],
        rows::of(&reading.given),
        fields::of(&reading.values),
        end::of(reading),
    ];
    let texts = sections.iter().filter(|lines| !lines.is_empty());
    let texts: Vec<String> = texts.map(|lines| lines.join("\n")).collect();
    Ok(writeln!(out, "{}", texts.join("\n\n"))?)
}

fn head(Reading { given, count, told, .. }: &Reading) -> String {
    if !given.is_frame() {
        return "No frame".to_owned();
    }
    let name = words::name(given.bytes[0]);
    let listed = match name {
        "Update" if *told => format!(" for {}, as its bytes tell", channels(*count)),
        "Update" => format!(" for {}", channels(*count)),
        _ => String::new(),
    };
    let bytes = if given.length() == 1 { "byte" } else { "bytes" };
    format!("{name}{listed}: {} {bytes}", given.length())
}

fn channels(count: usize) -> String {
    let channels = if count == 1 { "channel" } else { "channels" };
    format!("{count} listed {channels}")
}
