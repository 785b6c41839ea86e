//! What the library read in a packet.

use super::field::{coded, Field};
use crate::packet::field::Value;
use crate::packet::generation::Read;
use yarrowbell::rehamove3::{ChannelConfig, Command, Outcome, Packet, Pulse};

pub fn of(packet: &Packet) -> Read<Field> {
    Read {
        packet: packet.number,
        command: packet.command.number(),
        carried: !matches!(packet.command, Command::Other { .. }),
        values: values(&packet.command),
    }
}

/// The pulse of a packet, if it has one.
pub fn pulse(packet: &Packet) -> Option<Pulse> {
    match packet.command {
        Command::LlChannelConfig(config) => Some(config.pulse),
        _ => None,
    }
}

fn values(command: &Command) -> Vec<Value<Field>> {
    match *command {
        Command::LlInit { voltage } => vec![Value::once(Field::HighVoltage, voltage.0)],
        Command::LlInitAck { result } | Command::LlStopAck { result } => {
            vec![Value::once(Field::Result, result.0)]
        }
        Command::LlChannelConfig(config) => of_config(&config),
        Command::LlChannelConfigAck { result, electrode } => {
            let field = match result {
                Outcome::ELECTRODE_ERROR => Field::ElectrodeErrorChannel,
                _ => Field::NoElectrodeErrorChannel,
            };
            vec![Value::once(Field::Result, result.0), Value::once(field, electrode)]
        }
        Command::LlStop | Command::Other { .. } => Vec::new(),
    }
}

fn of_config(config: &ChannelConfig) -> Vec<Value<Field>> {
    let points = config.pulse.points();
    let once = [
        Value::once(Field::ExecutionStimulation, config.execution),
        Value::once(Field::ChannelSelection, config.channel),
        Value::once(Field::NumberOfPoints, points.len() as u16),
    ];
    let each = (1..).zip(points).flat_map(|(point, is)| {
        let duration = i32::from(is.duration);
        let code = coded(is.current);
        [(Field::Duration, duration), (Field::Current, code)].map(|(field, number)| Value {
            field,
            point,
            number,
        })
    });
    once.into_iter().chain(each).collect()
}
