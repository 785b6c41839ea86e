//! `yarrowbell packet write rehastim2 init-channel-list-mode`

use super::interval;
use crate::channels::{self, Channels, NotChannels};
use crate::number;
use crate::packet::field::Field as _;
use crate::packet::rehastim2::field::Field;
use crate::packet::{argument, named};
use crate::write::argument::Argument;
use clap::Args;
use yarrowbell::rehastim2::{ChannelList, Command};

/// Write an InitChannelListMode: the list of channels and its intervals
#[derive(Args)]
#[command(after_help = "\
Intervals are coded in steps of 0.5 ms: one that is given in ms must be such a step.

Examples, the same intervals in ms and coded:
  yarrowbell packet write rehastim2 init-channel-list-mode --active-channels 1,3 \\
    --inter-pulse-interval 8ms --main-stimulation-interval 50ms
  yarrowbell packet write rehastim2 init-channel-list-mode --active-channels 1-4 \\
    --active-low-frequency-channels 4 --low-frequency-factor 2 --inter-pulse-interval 13 \\
    --main-stimulation-interval 98 --channel-execution as-fast-as-possible")]
pub struct Words {
    /// Low frequency factor, 0 to 7: how many times the low frequency channels are skipped
    #[arg(long, value_name = "N", default_value_t = 0)]
    #[arg(value_parser = number::ruled::<u8>(Field::LowFrequencyFactor.rule()), allow_negative_numbers = true)]
    low_frequency_factor: u8,

    /// Active channels, as 1,3 or 1-4,7, or none
    #[arg(long, value_name = "LIST")]
    #[arg(value_parser = listed, allow_negative_numbers = true)]
    active_channels: Channels,

    /// Active low frequency channels, as 1,3 or 1-4,7, or none
    #[arg(long, value_name = "LIST", default_value = "none")]
    #[arg(value_parser = listed, allow_negative_numbers = true)]
    active_low_frequency_channels: Channels,

    /// Inter pulse interval: 1.5ms to 129ms, or coded, 0 to 255, half of which plus 1.5 is it in ms
    #[arg(long, value_name = "T")]
    #[arg(value_parser = interval::inter_pulse, allow_negative_numbers = true)]
    inter_pulse_interval: u8,

    /// Main stimulation interval: 1ms to 1025ms, or coded, 0 to 2048, half of which plus 1 is it in
    /// ms; 0 is the one shot channel list mode
    #[arg(long, value_name = "T")]
    #[arg(value_parser = interval::main_stimulation, allow_negative_numbers = true)]
    main_stimulation_interval: u16,

    /// Channel execution, 0 or 1, or its word: fixed-interval, as-fast-as-possible
    #[arg(long, value_name = "E", default_value = "0")]
    #[arg(value_parser = named::of::<u8>(Field::ChannelExecution), allow_negative_numbers = true)]
    channel_execution: u8,
}

impl Words {
    pub fn command(&self) -> Command {
        Command::InitChannelListMode(ChannelList {
            factor: self.low_frequency_factor,
            active: self.active_channels.0,
            lf: self.active_low_frequency_channels.0,
            inter: self.inter_pulse_interval,
            main: self.main_stimulation_interval,
            execution: self.channel_execution,
        })
    }

    /// Every list of channels and every inter pulse interval is good.
    pub fn arguments(&self) -> Vec<Argument> {
        vec![
            argument::of(
                "--low-frequency-factor",
                Field::LowFrequencyFactor,
                self.low_frequency_factor,
            ),
            argument::of(
                "--main-stimulation-interval",
                Field::MainStimulationInterval,
                self.main_stimulation_interval,
            ),
            argument::of("--channel-execution", Field::ChannelExecution, self.channel_execution),
        ]
    }
}

/// A list of channels, which may be none.
fn listed(list: &str) -> Result<Channels, NotChannels> {
    if list == "none" {
        return Ok(Channels(0));
    }
    channels::parsed(list)
}
