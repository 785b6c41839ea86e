//! `yarrowbell packet write`

use super::{rehamove3, rehastim2};
use crate::failure::{Failure, Out};
use clap::{Args, Subcommand};

/// Write one packet and print its bytes in hex
#[derive(Args)]
#[command(after_help = "\
Examples:
  yarrowbell packet write rehastim2 watchdog --number 7
  yarrowbell packet write rehamove3 ll-stop --packet 2")]
pub struct Write {
    #[command(subcommand)]
    device: Of,
}

/// The devices, each with its commands.
#[derive(Subcommand)]
enum Of {
    Rehastim2(rehastim2::Write),
    Rehamove3(rehamove3::Write),
}

impl Write {
    pub fn run(self, out: Out) -> Result<(), Failure> {
        match self.device {
            Of::Rehastim2(write) => write.run(out),
            Of::Rehamove3(write) => write.run(out),
        }
    }
}
