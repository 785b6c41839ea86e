//! `yarrowbell session`

mod commands;
mod list;
mod time;
mod to_script;
mod to_session;

use crate::failure::{Failure, Out};
use crate::input::Source;
use crate::output::Outputs;
use crate::session::Session;
use clap::Args;
use std::path::PathBuf;

/// Turn a script, commands in words, into a session file, or a session file into a script
///
/// Prints the session file, in which each command stands as a comment behind its bytes; with --back
/// the script, which has the same bytes at the same clocks.
#[derive(Args)]
#[command(after_help = "\
A line of a script is the word at, a time, and a command in the words of yarrowbell write. Times are
clocks, in tenths of a millisecond, or milliseconds with ms behind them; they do not fall. The word
bytes sends bytes in hex as they are. The last line may be a time and the word end. What follows # is
a comment.

An Update is for the list of the last Init before it: its settings name the channels of that list,
or name none and are as many. Its frame does not hold them.

With --back a frame is told in words if its bytes are sent at one clock and the library reads it, and
writes it with the very same bytes; all else is told as bytes. Comments are not kept.

Example of a script:
  at 0 init --channels 1,3 --group-time 3 --main-time 18
  at 0.5ms update 1:0:200:40 3:1:300:30
  at 30 ms stop
  at 310 bytes E2 21          # cut on purpose
  at 40 ms end

Examples:
  yarrowbell session day1.script
  yarrowbell session day1.script --out day1.session
  yarrowbell session --back case12.session")]
pub struct Script {
    /// The script, or with --back the session file; - for standard input
    #[arg(value_name = "SCRIPT")]
    file: Source,

    /// Turn a session file into a script
    #[arg(long)]
    back: bool,

    /// Write it into this file instead of printing it
    #[arg(long, value_name = "OUT")]
    out: Option<PathBuf>,
}

impl Script {
    pub fn run(self, out: Out) -> Result<(), Failure> {
        let turned = if self.back {
            to_script::script(&Session::of_file(&self.file)?)
        } else {
            to_session::session(&self.file.text()?, self.file.name())?
        };
        match &self.out {
            None => Ok(out.write_all(turned.as_bytes())?),
            Some(path) => {
                let read = if self.back { "the session" } else { "the script" };
                Outputs::new([(read, self.file.path())]).plan(path)?.put(&turned, out)
            }
        }
    }
}
