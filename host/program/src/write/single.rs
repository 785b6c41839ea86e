//! `yarrowbell write single`

use super::argument::Argument;
use crate::field::Field;
use crate::number;
use clap::Args;
use std::num::NonZeroU8;
use yarrowbell::{Command, Single};

/// Write a Single: one pulse on one channel
#[derive(Args)]
#[command(after_help = "\
Example:
  yarrowbell write single --channel 3 --width 200 --current 120")]
pub struct Words {
    /// The channel, 1 to 8
    #[arg(long, value_name = "N")]
    #[arg(value_parser = number::of::<NonZeroU8>(Field::ChannelNumber), allow_negative_numbers = true)]
    channel: NonZeroU8,

    /// The pulse's width in µs, 0 or 10 to 500
    #[arg(long, value_name = "MICROSECONDS")]
    #[arg(value_parser = number::of::<u16>(Field::PulseWidth), allow_negative_numbers = true)]
    width: u16,

    /// The pulse's current in mA, 0 to 127
    #[arg(long, value_name = "MILLIAMPS")]
    #[arg(value_parser = number::of::<u8>(Field::PulseCurrent), allow_negative_numbers = true)]
    current: u8,
}

impl Words {
    pub fn command(&self) -> Command {
        Command::Single(Single {
            channel: self.channel_number(),
            width: self.width,
            current: self.current,
        })
    }

    pub fn arguments(&self) -> Vec<Argument> {
        vec![
            Argument::of("--channel", self.channel, Field::ChannelNumber, self.channel_number()),
            Argument::of("--width", self.width, Field::PulseWidth, self.width),
            Argument::of("--current", self.current, Field::PulseCurrent, self.current),
        ]
    }

    /// It counts from 0.
    fn channel_number(&self) -> u8 {
        self.channel.get() - 1
    }
}
