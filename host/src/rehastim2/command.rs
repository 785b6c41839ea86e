//! The commands.

use super::{ErrorCode, StimulationMode};
use crate::raw::rehastim2::ReadPacket;

/// A command (source 000, section 3). Any value can be asked to be written; one that is not good is
/// refused.
#[derive(Clone, Copy, Debug, PartialEq, Eq)]
pub enum Command {
    /// 1: "Initialize connection".
    Init {
        /// Version number: "Current version number of the protocol".
        version: u8,
    },
    /// 2: "Response to initialize connection".
    InitAck {
        /// How it went.
        result: ErrorCode,
    },
    /// 3: "Unknown command received".
    UnknownCommand {
        /// Echo command byte: "Echos the received command value".
        echo: u8,
    },
    /// 4: "Watchdog command".
    Watchdog,
    /// 10: "Get current Stimulation mode".
    GetStimulationMode,
    /// 11: "Response to get current Stimulation mode".
    GetStimulationModeAck {
        /// How it went.
        result: ErrorCode,
        /// The mode; it is there exactly if the result is no error.
        mode: Option<StimulationMode>,
    },
    /// 30: "Initialize stimulation (Channel list mode)".
    InitChannelListMode(ChannelList),
    /// 31: "Response to initialize stimulation".
    InitChannelListModeAck {
        /// How it went.
        result: ErrorCode,
    },
    /// Any other, which is read with its number and its data, and is not written.
    Other {
        /// Its number.
        number: u8,
    },
}

/// The values of an InitChannelListMode (source 000, section 4.3).
#[derive(Clone, Copy, Debug, Default, PartialEq, Eq)]
pub struct ChannelList {
    /// Low frequency factor, 0 to 7: how many times a low frequency channel is skipped.
    pub factor: u8,
    /// Active channels, from channel 1 in bit 0 to channel 8 in bit 7.
    pub active: u8,
    /// Active low frequency channels, in the same bits.
    pub lf: u8,
    /// Inter pulse interval coded: it is half of this plus 1.5, in milliseconds.
    pub inter: u8,
    /// Main stimulation interval coded, 0 to 2,048: it is half of this plus 1, in milliseconds. 0 is the
    /// one shot channel list mode.
    pub main: u16,
    /// Channel execution: 0 a fixed interval, 1 as fast as possible.
    pub execution: u8,
}

impl Command {
    /// The value of source 000, section 3.
    pub fn number(&self) -> u8 {
        match self {
            Command::Init { .. } => 1,
            Command::InitAck { .. } => 2,
            Command::UnknownCommand { .. } => 3,
            Command::Watchdog => 4,
            Command::GetStimulationMode => 10,
            Command::GetStimulationModeAck { .. } => 11,
            Command::InitChannelListMode(_) => 30,
            Command::InitChannelListModeAck { .. } => 31,
            Command::Other { number } => *number,
        }
    }

    /// The command that the library read.
    pub(super) fn known(read: &ReadPacket) -> Command {
        let result = ErrorCode(read.result);
        match read.command {
            1 => Command::Init { version: read.version },
            2 => Command::InitAck { result },
            3 => Command::UnknownCommand { echo: read.echo },
            4 => Command::Watchdog,
            10 => Command::GetStimulationMode,
            11 => {
                let there = result == ErrorCode::NO_ERROR;
                let mode = there.then_some(StimulationMode(read.mode));
                Command::GetStimulationModeAck { result, mode }
            }
            30 => Command::InitChannelListMode(ChannelList {
                factor: read.factor,
                active: read.active,
                lf: read.lf,
                inter: read.inter,
                main: read.main,
                execution: read.execution.try_into().expect("it is 0 or 1"),
            }),
            31 => Command::InitChannelListModeAck { result },
            number => Command::Other { number },
        }
    }
}
