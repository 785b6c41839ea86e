//! `yarrowbell packet write rehastim2 unknown-command`

use crate::number;
use crate::packet::field::Field as _;
use crate::packet::rehastim2::field::Field;
use clap::Args;
use yarrowbell::rehastim2::Command;

/// Write an UnknownCommand: the RehaStim2 does not know a command that it got
#[derive(Args)]
#[command(after_help = "\
Example:
  yarrowbell packet write rehastim2 unknown-command --echo-command-byte 99 --number 4")]
pub struct Words {
    /// Echo command byte: the number of the command that it got, 0 to 255
    #[arg(long, value_name = "N")]
    #[arg(value_parser = number::ruled::<u8>(Field::EchoCommandByte.rule()), allow_negative_numbers = true)]
    echo_command_byte: u8,
}

impl Words {
    pub fn command(&self) -> Command {
        Command::UnknownCommand { echo: self.echo_command_byte }
    }
}
