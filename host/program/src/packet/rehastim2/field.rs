//! The fields of packets: their names, their good values, and what their numbers mean.

use super::names::COMMANDS;
use crate::packet::{field, names};
use crate::words;
use std::ops::RangeInclusive;
use yarrowbell::rehastim2::{self, ErrorCode};

/// A field of a packet, as source 000 names it in section 4.
#[derive(Clone, Copy, Debug, PartialEq, Eq)]
pub enum Field {
    PacketNumber,
    Command,
    VersionNumber,
    Result,
    EchoCommandByte,
    StimulationMode,
    LowFrequencyFactor,
    ActiveChannels,
    ActiveLowFrequencyChannels,
    InterPulseInterval,
    MainStimulationInterval,
    ChannelExecution,
}

use Field::*;

impl field::Field for Field {
    fn name(self) -> &'static str {
        match self {
            PacketNumber => "Packet number",
            Command => "Command",
            VersionNumber => "Version number",
            Result => "Result",
            EchoCommandByte => "Echo command byte",
            StimulationMode => "Stimulation mode",
            LowFrequencyFactor => "Low frequency factor",
            ActiveChannels => "Active channels",
            ActiveLowFrequencyChannels => "Active low frequency channels",
            InterPulseInterval => "Inter pulse interval coded",
            MainStimulationInterval => "Main stimulation interval coded",
            ChannelExecution => "Channel execution",
        }
    }

    /// Results are signed.
    fn number(self, bits: u16) -> i32 {
        match self {
            Result => i32::from(bits as i8),
            _ => bits.into(),
        }
    }

    fn judged(self, value: i32) -> (bool, &'static str) {
        let (good, rule) = self.range();
        (good.contains(&value), rule)
    }

    fn word(self, value: i32) -> Option<&'static str> {
        match self {
            Result => ErrorCode(value.try_into().ok()?).words(),
            StimulationMode => rehastim2::StimulationMode(value.try_into().ok()?).words(),
            ChannelExecution => {
                ["Fixed interval", "As fast as possible"].get(usize::try_from(value).ok()?).copied()
            }
            Command | EchoCommandByte => names::of(&COMMANDS, value.try_into().ok()?),
            _ => None,
        }
    }

    fn meaning(self, value: i32) -> String {
        let words = match self {
            PacketNumber | VersionNumber => None,
            Command | EchoCommandByte | Result | StimulationMode | ChannelExecution => {
                self.word(value).map(str::to_owned)
            }
            LowFrequencyFactor => Some(match value {
                0 => "no skip".to_owned(),
                1 => "skip once".to_owned(),
                _ => format!("skip {value} times"),
            }),
            ActiveChannels | ActiveLowFrequencyChannels => Some(words::channels(value as u8)),
            InterPulseInterval => Some(words::t2(value as u16)),
            MainStimulationInterval => {
                let mode = if value == 0 { "One shot" } else { "Continuous" };
                Some(format!("{}, {mode} channel list mode", words::t1(value as u16)))
            }
        };
        words.map_or_else(String::new, |words| format!(": {words}"))
    }
}

impl Field {
    /// The good values, and the rule for that.
    fn range(self) -> (RangeInclusive<i32>, &'static str) {
        match self {
            PacketNumber => (0..=255, "Packet number is 0 to 255 (source 000, section 4)"),
            Command => (0..=255, "Command is 0 to 255 (source 000, section 3)"),
            VersionNumber => (0..=255, "Version number is 0 to 255 (source 000, section 4.1)"),
            Result => (-8..=0, "Result is 0 to -8 (source 000, section 5.1)"),
            EchoCommandByte => (0..=255, "Echo command byte is 0 to 255 (source 000, section 4.1)"),
            StimulationMode => (0..=2, "Stimulation mode is 0, 1 or 2 (source 000, section 4.2)"),
            LowFrequencyFactor => {
                (0..=7, "Low frequency factor is 0 to 7 (source 000, section 4.3)")
            }
            ActiveChannels => (0..=255, "Active channels are 0 to 255 (source 000, section 4.3)"),
            ActiveLowFrequencyChannels => {
                (0..=255, "Active low frequency channels are 0 to 255 (source 000, section 4.3)")
            }
            InterPulseInterval => (
                0..=255,
                "Inter pulse interval coded is 0 to 255, 1.5 to 129.0 ms (source 000, section 4.3)",
            ),
            MainStimulationInterval => (
                0..=2048,
                "Main stimulation interval coded is 0 to 2048, 1.0 to 1025.0 ms (source 000, \
                 section 4.3)",
            ),
            ChannelExecution => (0..=1, "Channel execution is 0 or 1 (source 000, section 4.3)"),
        }
    }
}
