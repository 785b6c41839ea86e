//! `yarrowbell packet write rehamove3`

mod acknowledgement;
mod balance;
mod ll_channel_config;
mod ll_channel_config_ack;
mod ll_init;

use super::field::Field;
use super::{plot, Rehamove3};
use crate::failure::{BadInput, Failure, Out};
use crate::number;
use crate::output::{Leaving, Outputs};
use crate::packet::field::Field as _;
use crate::packet::{argument, written};
use crate::picture::pulse;
use crate::write::argument::Argument;
use clap::{Args, Subcommand};
use std::path::Path;
use yarrowbell::rehamove3::{Command, NotWritten, LONGEST_WRITTEN};

/// Write a packet of the RehaMove3 (source 002)
#[derive(Args)]
#[command(after_help = "\
Examples:
  yarrowbell packet write rehamove3 ll-stop --packet 2
  yarrowbell packet write rehamove3 ll-stop-ack --result no-error --packet 2")]
pub struct Write {
    #[command(subcommand)]
    command: Words,

    /// Packet number, 0 to 63: a response echoes it
    #[arg(long, visible_alias = "number", value_name = "N", default_value_t = 0, global = true)]
    #[arg(value_parser = number::ruled::<u8>(Field::PacketNumber.rule()), allow_negative_numbers = true)]
    packet: u8,

    /// Print the packet as JSON, one object in a line
    #[arg(long, global = true)]
    json: bool,
}

/// A command in words.
#[derive(Subcommand)]
enum Words {
    #[command(name = "ll-init")]
    Init(ll_init::Words),
    /// Write an Ll_init_ack: the response to an Ll_init
    #[command(name = "ll-init-ack")]
    #[command(after_help = "\
Example:
  yarrowbell packet write rehamove3 ll-init-ack --result no-error")]
    InitAck(acknowledgement::Words),
    #[command(name = "ll-channel-config")]
    ChannelConfig(ll_channel_config::Words),
    #[command(name = "ll-channel-config-ack")]
    ChannelConfigAck(ll_channel_config_ack::Words),
    /// Write an Ll_stop: the PC ends the low-level mode, and the high voltage is switched off
    #[command(name = "ll-stop")]
    #[command(after_help = "\
Example:
  yarrowbell packet write rehamove3 ll-stop --packet 2")]
    Stop,
    /// Write an Ll_stop_ack: the response to an Ll_stop
    #[command(name = "ll-stop-ack")]
    #[command(after_help = "\
Example:
  yarrowbell packet write rehamove3 ll-stop-ack --result no-error --packet 2")]
    StopAck(acknowledgement::Words),
}

impl Write {
    pub fn run(self, out: Out) -> Result<(), Failure> {
        let plot = self.command.plot().map(|path| Outputs::new([]).plan(path)).transpose()?;
        let out: Out = &mut Leaving::new(out, plot.is_some());
        let (mut packet, command) = ([0; LONGEST_WRITTEN], self.command.command());
        let written = match &command {
            Some(command) => yarrowbell::rehamove3::write(self.packet, command, &mut packet),
            None => Err(NotWritten::NotGood),
        };
        if let Ok(used) = written {
            written::print::<Rehamove3>(&packet[..used], self.json, out)?;
        }
        let drawn = command.and_then(|command| plot::of_command(&command, written));
        if let (Some(plot), Some(drawn)) = (plot, drawn) {
            plot.put(&pulse::svg(&[drawn]), out)?;
        }
        written.map(|_| ()).map_err(|why| self.fault(why).into())
    }

    /// What is said of the argument at fault: of one that gives a value that is not good before the
    /// net charge of all points.
    fn fault(&self, why: NotWritten) -> BadInput {
        let number = argument::of("--packet", Field::PacketNumber, self.packet);
        let mut arguments = [number].into_iter().chain(self.command.arguments());
        if let Some(fault) = arguments.find_map(|argument| argument.fault(NotWritten::NotGood)) {
            return fault;
        }
        match (&self.command, why) {
            (Words::ChannelConfig(words), NotWritten::NotBalanced { charge }) => {
                let what = balance::told(words.points(), charge);
                BadInput::argument("--point", format!("the pulse is not good ({why}): {what}"))
            }
            _ => unreachable!("the library refuses by the rules of source 002 and request 13"),
        }
    }
}

impl Words {
    /// None of a pulse with more points than it can have.
    fn command(&self) -> Option<Command> {
        Some(match self {
            Words::Init(words) => words.command(),
            Words::InitAck(words) => Command::LlInitAck { result: words.result() },
            Words::ChannelConfig(words) => words.command()?,
            Words::ChannelConfigAck(words) => words.command(),
            Words::Stop => Command::LlStop,
            Words::StopAck(words) => Command::LlStopAck { result: words.result() },
        })
    }

    fn plot(&self) -> Option<&Path> {
        match self {
            Words::ChannelConfig(words) => words.plot.as_deref(),
            _ => None,
        }
    }

    /// Those that can be spelt with a value that is not good.
    fn arguments(&self) -> Vec<Argument> {
        match self {
            Words::Init(words) => words.arguments(),
            Words::InitAck(words) | Words::StopAck(words) => words.arguments(),
            Words::ChannelConfig(words) => words.arguments(),
            Words::ChannelConfigAck(words) => words.arguments(),
            Words::Stop => Vec::new(),
        }
    }
}
