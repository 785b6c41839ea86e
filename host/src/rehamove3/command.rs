//! The commands.

use super::{HighVoltage, Outcome, Pulse};
use crate::raw::rehamove3::ReadPacket;

/// A command (source 002, section 4). Any value can be asked to be written; one that is not good is
/// refused.
#[derive(Clone, Copy, Debug, PartialEq, Eq)]
pub enum Command {
    /// 0: "Requests the initialization of the low level mode; Switches on the high voltage".
    LlInit {
        /// High Voltage.
        voltage: HighVoltage,
    },
    /// 1: "Response for Ll_init".
    LlInitAck {
        /// How it went.
        result: Outcome,
    },
    /// 2: "Requests the execution of a stimulation pulse".
    LlChannelConfig(ChannelConfig),
    /// 3: "Response for Ll_channel_config".
    LlChannelConfigAck {
        /// How it went.
        result: Outcome,
        /// Electrode error channel, 0 to 3 if the result is an electrode error, and else any byte.
        electrode: u8,
    },
    /// 4: "Requests the stop of low-level mode; Switches off the high voltage".
    LlStop,
    /// 5: "Response to Ll_stop".
    LlStopAck {
        /// How it went.
        result: Outcome,
    },
    /// Any other, which is read with its number and its data, and is not written.
    Other {
        /// Its number, 6 to 1,023.
        number: u16,
    },
}

/// The values of an Ll_channel_config (source 002, section 4.2).
#[derive(Clone, Copy, Debug, PartialEq, Eq)]
pub struct ChannelConfig {
    /// Execution Stimulation: whether the pulse is executed.
    pub execution: bool,
    /// Channel selection: 0 red, 1 blue, 2 black, 3 white.
    pub channel: u8,
    /// What flows, point by point. Only one whose net charge is zero is written.
    pub pulse: Pulse,
}

impl Command {
    /// The number of source 002, section 4.1.
    pub fn number(&self) -> u16 {
        match self {
            Command::LlInit { .. } => 0,
            Command::LlInitAck { .. } => 1,
            Command::LlChannelConfig(_) => 2,
            Command::LlChannelConfigAck { .. } => 3,
            Command::LlStop => 4,
            Command::LlStopAck { .. } => 5,
            Command::Other { number } => *number,
        }
    }

    /// The command that the library read.
    pub(super) fn known(read: &ReadPacket) -> Command {
        let result = Outcome(read.result);
        match read.command {
            0 => Command::LlInit { voltage: HighVoltage(read.voltage) },
            1 => Command::LlInitAck { result },
            2 => Command::LlChannelConfig(ChannelConfig {
                execution: read.execution != 0,
                channel: read.channel,
                pulse: Pulse::known(read.number, &read.points),
            }),
            3 => Command::LlChannelConfigAck { result, electrode: read.electrode },
            4 => Command::LlStop,
            5 => Command::LlStopAck { result },
            number => Command::Other { number },
        }
    }
}
