//! Which fields the data of each carried command has.

use super::field::Field::{self, *};
use super::names::COMMANDS;
use crate::layout::Row;
use crate::packet::generation::Data;
use crate::packet::names;
use yarrowbell::rehamove3::Outcome;

/// "Point definition" of section 4.2.
const POINT: Row<Field> = &[(Duration, 12), (Current, 10), (Reserved, 10)];

/// The fields of a carried command in the order of its data, some of which there is; none of another
/// command.
pub fn fields(command: u16, data: &[u8]) -> Option<Data<Field>> {
    let first = data.first().copied().unwrap_or_default();
    Some(match names::of(&COMMANDS, command)? {
        "Ll_init" => Data::once(&[(Reserved, 4), (HighVoltage, 3), (Reserved, 1)]),
        "Ll_init_ack" | "Ll_stop_ack" => Data::once(&[(Result, 8)]),
        "Ll_channel_config" => Data {
            once: &[
                (ExecutionStimulation, 1),
                (ChannelSelection, 2),
                (Reserved, 1),
                (NumberOfPoints, 4),
            ],
            each: POINT,
            points: usize::from(first & 0x0F) + 1,
        },
        // "Contains electrode error channel, if result == electrode error"
        "Ll_channel_config_ack" if Outcome(first) == Outcome::ELECTRODE_ERROR => {
            Data::once(&[(Result, 8), (ElectrodeErrorChannel, 8)])
        }
        "Ll_channel_config_ack" => Data::once(&[(Result, 8), (NoElectrodeErrorChannel, 8)]),
        "Ll_stop" => Data::once(&[]),
        _ => return None,
    })
}
