//! The values of the commands.

use super::{
    GET_STIMULATION_MODE, GET_STIMULATION_MODE_ACK, INIT, INIT_ACK, INIT_CHANNEL_LIST_MODE,
    INIT_CHANNEL_LIST_MODE_ACK, UNKNOWN_COMMAND, WATCHDOG,
};
use crate::rehastim2::{ChannelList, Command};

/// The command of this number and this data; none if it cannot have this data.
#[inline(always)]
pub(super) fn command(number: u8, data: &[u8]) -> Option<Command> {
    Some(match (number, data) {
        (INIT, &[version]) => Command::Init { version },
        (INIT_ACK, &[byte]) => Command::InitAck { result: result(byte)? },
        (UNKNOWN_COMMAND, &[echo]) => Command::UnknownCommand { echo },
        (WATCHDOG, []) => Command::Watchdog,
        (GET_STIMULATION_MODE, []) => Command::GetStimulationMode,
        (GET_STIMULATION_MODE_ACK, &[0, mode @ 0..=2]) => {
            Command::GetStimulationModeAck { result: 0, mode }
        }
        (GET_STIMULATION_MODE_ACK, &[byte @ 1..=255]) => {
            Command::GetStimulationModeAck { result: result(byte)?, mode: 0 }
        }
        (INIT_CHANNEL_LIST_MODE, &[factor, active, low, inter, msb, lsb, execution]) => {
            let list = ChannelList {
                low_frequency_factor: factor,
                active_channels: active,
                active_low_frequency_channels: low,
                inter_pulse_interval: inter,
                main_stimulation_interval: u16::from_be_bytes([msb, lsb]),
                channel_execution: execution,
            };
            if !good_list(&list) {
                return None;
            }
            Command::InitChannelListMode(list)
        }
        (INIT_CHANNEL_LIST_MODE_ACK, &[byte]) => {
            Command::InitChannelListModeAck { result: result(byte)? }
        }
        (
            INIT
            | INIT_ACK
            | UNKNOWN_COMMAND
            | WATCHDOG
            | GET_STIMULATION_MODE
            | GET_STIMULATION_MODE_ACK
            | INIT_CHANNEL_LIST_MODE
            | INIT_CHANNEL_LIST_MODE_ACK,
            _,
        ) => return None,
        (number, _) => Command::Other { number },
    })
}

#[inline(always)]
fn result(byte: u8) -> Option<i8> {
    let result = byte as i8;
    good_result(result).then_some(result)
}

#[inline(always)]
pub(super) fn good_result(result: i8) -> bool {
    matches!(result, -8..=0)
}

/// A mode with a result that is not 0 is not in the packet.
#[inline(always)]
pub(super) fn good_mode(result: i8, mode: u8) -> bool {
    good_result(result) & (mode <= if result == 0 { 2 } else { 0 })
}

#[inline(always)]
pub(super) fn good_list(list: &ChannelList) -> bool {
    (list.low_frequency_factor <= 7)
        & (list.main_stimulation_interval <= 2048)
        & (list.channel_execution <= 1)
}
