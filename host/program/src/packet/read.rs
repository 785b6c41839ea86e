//! `yarrowbell packet read`

use super::device::Device;
use super::generation::Generation;
use super::reading::Reading;
use super::rehamove3::Rehamove3;
use super::rehastim2::Rehastim2;
use super::{all, first};
use crate::bytes::Bytes;
use crate::failure::{BadInput, Failure, Out};
use crate::output::{Leaving, Output, Outputs};
use crate::picture::pulse::{self, Panel};
use clap::Args;
use std::ffi::OsString;
use std::path::{Path, PathBuf};
use std::process::ExitCode;
use yarrowbell::Answer;

/// Read the first packet of a capture, or with --all every one: its bytes, its fields, its checksum,
/// and the answer to it
///
/// Prints each byte as it came and unstuffed, with what it is, the value of each field, checksum and
/// length worked out, and the proved reader's answer; of a pulse each point, and the net charge. A
/// packet that the reader refuses is shown as far as its bytes go, with the place at which it is
/// refused and what would be right there.
#[derive(Args)]
#[command(after_help = "\
Garbage before a packet is passed over. F0 opens a packet unless 81 stands straight before it, and 0F
ends one likewise; F0 inside an open packet drops that and opens a new one. Places are counted from 0,
as source 000's tables count.

A charge is current times duration: in half milliamp microseconds, two of which are one nanocoulomb.
A pulse is read whatever its net charge.

Bytes in hex may have 0x before them, and spaces, line ends, a comma or a colon between them. In a
file # begins a comment. A file is taken as the bytes themselves if it is no text: not UTF-8, or with
a control character other than tab, line feed, form feed and carriage return. A file whose name is
hex digits is given as ./F0.

Examples, a Watchdog, and two packets with garbage between them:
  yarrowbell packet read rehastim2 F0 81 49 81 57 00 04 0F
  yarrowbell packet read rehastim2 F08149815700040F 4142 F08149815700040F --all
  yarrowbell packet read rehastim2 F08149815700040F --json --check
Examples of the RehaMove3, a pulse of three points, and the same drawn:
  yarrowbell packet read rehamove3 F08155814E81D381AF 040282 815AA55000 0644B000 815AA41000 0F
  yarrowbell packet read rehamove3 F08155814E81D381AF 040282 815AA55000 0644B000 815AA41000 0F \\
    --plot pulse.svg")]
pub struct Read {
    /// Whose packets they are
    #[arg(value_enum)]
    device: Device,

    /// The bytes in hex; or one file that has them, or - for standard input
    #[arg(value_name = "HEX", required = true, value_parser = clap::value_parser!(OsString))]
    words: Vec<OsString>,

    /// Read all packets, a row each, and count them
    #[arg(long)]
    all: bool,

    /// Print what is in the packet as JSON, one object in a line; with --all a line for each packet
    #[arg(long)]
    json: bool,

    /// Draw the pulse of the RehaMove3's Ll_channel_config
    #[arg(long, value_name = "OUT.svg", conflicts_with = "all")]
    plot: Option<PathBuf>,

    /// Exit with status 1 if a packet is refused: if an answer is not 0
    #[arg(long)]
    check: bool,
}

impl Read {
    pub fn run(self, out: Out) -> Result<ExitCode, Failure> {
        let given = Bytes::of_words_or_file(&self.words)?;
        if given.all.is_empty() && !self.all {
            return Err(given.fault(None, "no bytes").into());
        }
        let good = match self.device {
            Device::Rehastim2 => self.read::<Rehastim2>(&given, out)?,
            Device::Rehamove3 => self.read::<Rehamove3>(&given, out)?,
        };
        Ok(if self.check && !good { ExitCode::FAILURE } else { ExitCode::SUCCESS })
    }

    /// Prints the first packet, or all of them, and says whether every answer is 0.
    fn read<G: Generation>(&self, given: &Bytes, out: Out) -> Result<bool, Failure> {
        if self.all {
            return all::print::<G>(&given.all, self.json, out);
        }
        let reading = Reading::<G>::first(&given.all);
        let plot = self.plot.as_deref().map(|path| planned(path, &reading, given)).transpose()?;
        let out: Out = &mut Leaving::new(out, plot.is_some());
        let good = first::print(&reading, self.json, out)?;
        if let Some((plot, drawn)) = plot {
            plot.put(&pulse::svg(&[drawn]), out)?;
        }
        Ok(good)
    }
}

/// Where the packet's pulse is drawn, if it has one.
fn planned<G: Generation>(
    path: &Path,
    reading: &Reading<G>,
    given: &Bytes,
) -> Result<(Output, Panel), BadInput> {
    let drawn =
        reading.found.packet.ok().and_then(|packet| G::pulse(&packet)).ok_or_else(|| {
            let what = match (reading.answer(), reading.name()) {
                (Answer::Done, Some(name)) => format!("the packet is {name}"),
                (Answer::Done, None) => "the packet is of another command".to_owned(),
                _ => reading.answer_told(),
            };
            BadInput::argument("--plot", format!("there is no pulse to draw: {what}"))
        })?;
    let capture = given.file().map(|file| ("the capture", file));
    Ok((Outputs::new(capture).plan(path)?, drawn))
}
