//! Which fields the data of each carried command has.

use super::field::Field::{self, *};
use super::names::COMMANDS;
use crate::layout::Row;
use crate::packet::names;

/// The fields of a carried command in the order of its data, some of which there is; none of another
/// command.
pub fn fields(command: u16, data: &[u8]) -> Option<Row<Field>> {
    Some(match names::of(&COMMANDS, command)? {
        "Init" => &[(VersionNumber, 8)],
        "InitAck" | "InitChannelListModeAck" => &[(Result, 8)],
        "UnknownCommand" => &[(EchoCommandByte, 8)],
        "Watchdog" | "GetStimulationMode" => &[],
        // "If Result ≠ 0, then byte 8 = stop byte"
        "GetStimulationModeAck" if data.first().is_some_and(|result| *result != 0) => {
            &[(Result, 8)]
        }
        "GetStimulationModeAck" => &[(Result, 8), (StimulationMode, 8)],
        "InitChannelListMode" => &[
            (LowFrequencyFactor, 8),
            (ActiveChannels, 8),
            (ActiveLowFrequencyChannels, 8),
            (InterPulseInterval, 8),
            (MainStimulationInterval, 16),
            (ChannelExecution, 8),
        ],
        _ => return None,
    })
}
