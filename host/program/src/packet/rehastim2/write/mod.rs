//! `yarrowbell packet write rehastim2`

mod channel_list;
mod init;
mod interval;
mod response;
mod stimulation_mode;
mod unknown_command;

use super::field::Field;
use super::Rehastim2;
use crate::failure::{BadInput, Failure, Out};
use crate::number;
use crate::packet::field::Field as _;
use crate::packet::written;
use crate::write::argument::Argument;
use clap::{Args, Subcommand};
use yarrowbell::rehastim2::{Command, LONGEST_WRITTEN};

/// Write a packet of the RehaStim2 (ScienceMode2, source 000)
#[derive(Args)]
#[command(after_help = "\
Examples:
  yarrowbell packet write rehastim2 watchdog --number 7
  yarrowbell packet write rehastim2 init-ack --result incompatible-protocol-version")]
pub struct Write {
    #[command(subcommand)]
    command: Words,

    /// Packet number, 0 to 255: the PC counts it up, and a response echoes it
    #[arg(long, visible_alias = "packet", value_name = "N", default_value_t = 0, global = true)]
    #[arg(value_parser = number::ruled::<u8>(Field::PacketNumber.rule()), allow_negative_numbers = true)]
    number: u8,

    /// Print the packet as JSON, one object in a line
    #[arg(long, global = true)]
    json: bool,
}

/// A command in words.
#[derive(Subcommand)]
enum Words {
    Init(init::Words),
    /// Write an InitAck: the PC's response to an Init
    #[command(after_help = "\
Example:
  yarrowbell packet write rehastim2 init-ack --result 0 --number 1")]
    InitAck(response::Words),
    UnknownCommand(unknown_command::Words),
    /// Write a Watchdog: the PC is there
    #[command(after_help = "\
Example:
  yarrowbell packet write rehastim2 watchdog --number 7")]
    Watchdog,
    /// Write a GetStimulationMode: the PC asks for the mode
    #[command(after_help = "\
Example:
  yarrowbell packet write rehastim2 get-stimulation-mode --number 8")]
    GetStimulationMode,
    GetStimulationModeAck(stimulation_mode::Words),
    InitChannelListMode(channel_list::Words),
    /// Write an InitChannelListModeAck: the response to an InitChannelListMode
    #[command(after_help = "\
Example:
  yarrowbell packet write rehastim2 init-channel-list-mode-ack --result busy-error --number 9")]
    InitChannelListModeAck(response::Words),
}

impl Write {
    pub fn run(self, out: Out) -> Result<(), Failure> {
        written::print::<Rehastim2>(&self.packet()?, self.json, out)
    }

    /// The bytes of its packet, if the library writes it.
    fn packet(&self) -> Result<Vec<u8>, BadInput> {
        let mut packet = [0; LONGEST_WRITTEN];
        let command = self.command.command();
        let used = yarrowbell::rehastim2::write(self.number, &command, &mut packet);
        let used = used.map_err(|why| {
            let arguments = self.command.arguments();
            let fault = arguments.iter().find_map(|argument| argument.fault(why));
            fault.expect("the library refuses by source 000's rules")
        })?;
        Ok(packet[..used].to_vec())
    }
}

impl Words {
    fn command(&self) -> Command {
        match self {
            Words::Init(words) => words.command(),
            Words::InitAck(words) => Command::InitAck { result: words.result() },
            Words::UnknownCommand(words) => words.command(),
            Words::Watchdog => Command::Watchdog,
            Words::GetStimulationMode => Command::GetStimulationMode,
            Words::GetStimulationModeAck(words) => words.command(),
            Words::InitChannelListMode(words) => words.command(),
            Words::InitChannelListModeAck(words) => {
                Command::InitChannelListModeAck { result: words.result() }
            }
        }
    }

    /// Those that can be spelt with a value that is not good.
    fn arguments(&self) -> Vec<Argument> {
        match self {
            Words::InitAck(words) | Words::InitChannelListModeAck(words) => words.arguments(),
            Words::GetStimulationModeAck(words) => words.arguments(),
            Words::InitChannelListMode(words) => words.arguments(),
            Words::Init(_)
            | Words::UnknownCommand(_)
            | Words::Watchdog
            | Words::GetStimulationMode => Vec::new(),
        }
    }
}
