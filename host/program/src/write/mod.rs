//! `yarrowbell write`

pub mod argument;
mod init;
mod json;
mod single;
mod spelt;
mod update;

use crate::failure::{self, BadInput, Failure, Out};
use crate::{hex, reason};
use clap::{Args, Subcommand};
pub use spelt::spelt;
use yarrowbell::Command;

/// Write one frame and print its bytes in hex
#[derive(Args)]
#[command(after_help = "\
Example:
  yarrowbell write single --channel 3 --width 200 --current 120")]
pub struct Write {
    #[command(subcommand)]
    command: Words,

    /// Print the frame as JSON, one object in a line
    #[arg(long, global = true)]
    json: bool,
}

/// A command in words.
#[derive(Subcommand)]
pub enum Words {
    Single(single::Words),
    Init(init::Words),
    Update(update::Words),
    /// Write a Stop: the end of the list
    #[command(after_help = "\
Example:
  yarrowbell write stop")]
    Stop,
}

impl Write {
    pub fn run(self, out: Out) -> Result<(), Failure> {
        let frame = self.command.frame()?;
        if self.json {
            return json::print(&frame, out);
        }
        writeln!(out, "{}", hex::spelt(&frame))?;
        out.flush()?;
        reason::everywhere(&frame).into_iter().for_each(failure::say);
        Ok(())
    }
}

impl Words {
    /// The bytes of its frame, if the library writes it.
    pub fn frame(&self) -> Result<Vec<u8>, BadInput> {
        // The number of listed channels matters to an Update alone.
        let (command, count) = match self {
            Words::Single(words) => (words.command(), 1),
            Words::Init(words) => (words.command(), 1),
            Words::Update(words) => (words.command()?, words.count()),
            Words::Stop => (Command::Stop, 1),
        };
        let mut frame = [0; 25];
        let used = yarrowbell::write(&command, count, &mut frame).map_err(|why| {
            let arguments = match self {
                Words::Single(words) => words.arguments(),
                Words::Init(words) => words.arguments(),
                Words::Update(words) => words.arguments(),
                Words::Stop => Vec::new(),
            };
            let fault = arguments.iter().find_map(|argument| argument.fault(why));
            fault.expect("the library refuses by document 01's rules")
        })?;
        Ok(frame[..used].to_vec())
    }
}
