//! `yarrowbell packet write rehastim2 init`

use crate::number;
use crate::packet::field::Field as _;
use crate::packet::rehastim2::field::Field;
use clap::Args;
use yarrowbell::rehastim2::Command;

/// Write an Init: the RehaStim2 begins a connection
#[derive(Args)]
#[command(after_help = "\
Example:
  yarrowbell packet write rehastim2 init --version-number 1")]
pub struct Words {
    /// Version number of the protocol, 0 to 255
    #[arg(long, value_name = "N")]
    #[arg(value_parser = number::ruled::<u8>(Field::VersionNumber.rule()), allow_negative_numbers = true)]
    version_number: u8,
}

impl Words {
    pub fn command(&self) -> Command {
        Command::Init { version: self.version_number }
    }
}
