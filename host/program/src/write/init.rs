//! `yarrowbell write init`

use super::argument::Argument;
use crate::channels::{self, Channels};
use crate::field::Field;
use crate::number;
use clap::Args;
use yarrowbell::{Command, Init};

/// Write an Init: the list of channels and its times
#[derive(Args)]
#[command(after_help = "\
Example:
  yarrowbell write init --channels 1,3 --group-time 3 --main-time 18")]
pub struct Words {
    /// The listed channels (Channel_Stim), as 1,3 or 1-4,7
    #[arg(long, value_name = "LIST")]
    #[arg(value_parser = channels::parsed, allow_negative_numbers = true)]
    channels: Channels,

    /// The low frequency channels (Channel_Lf), as 1,3 or 1-4,7; none if left out
    #[arg(long, value_name = "LIST")]
    #[arg(value_parser = channels::parsed, allow_negative_numbers = true)]
    low_frequency: Option<Channels>,

    /// How many cycles the low frequency channels skip (N_Factor), 0 to 7
    #[arg(long, value_name = "N", default_value_t = 0)]
    #[arg(value_parser = number::of::<u8>(Field::NFactor), allow_negative_numbers = true)]
    skips: u8,

    /// Group_Time, 3 to 29: t2 is G / 2 + 1.5 in ms
    #[arg(long, value_name = "G")]
    #[arg(value_parser = number::of::<u8>(Field::GroupTime), allow_negative_numbers = true)]
    group_time: u8,

    /// Main_Time, 4 to 2045: t1 is M / 2 + 1 in ms
    #[arg(long, value_name = "M")]
    #[arg(value_parser = number::of::<u16>(Field::MainTime), allow_negative_numbers = true)]
    main_time: u16,
}

impl Words {
    pub fn command(&self) -> Command {
        Command::Init(Init {
            factor: self.skips,
            stim: self.channels.0,
            lf: self.low_frequency.map_or(0, |channels| channels.0),
            group: self.group_time,
            main: self.main_time,
        })
    }

    /// A list of channels cannot be spelt but as a good one.
    pub fn arguments(&self) -> Vec<Argument> {
        vec![
            Argument::of("--skips", self.skips, Field::NFactor, self.skips),
            Argument::of("--group-time", self.group_time, Field::GroupTime, self.group_time),
            Argument::of("--main-time", self.main_time, Field::MainTime, self.main_time),
        ]
    }
}
