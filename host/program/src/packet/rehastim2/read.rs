//! What the library read in a packet.

use super::field::Field;
use crate::packet::field::Value;
use crate::packet::generation::Read;
use yarrowbell::rehastim2::{ChannelList, Command, Packet};

pub fn of(packet: &Packet) -> Read<Field> {
    Read {
        packet: packet.number,
        command: packet.command.number().into(),
        carried: !matches!(packet.command, Command::Other { .. }),
        values: values(&packet.command),
    }
}

fn values(command: &Command) -> Vec<Value<Field>> {
    match *command {
        Command::Init { version } => vec![Value::once(Field::VersionNumber, version)],
        Command::InitAck { result } | Command::InitChannelListModeAck { result } => {
            vec![Value::once(Field::Result, result.0)]
        }
        Command::UnknownCommand { echo } => vec![Value::once(Field::EchoCommandByte, echo)],
        Command::GetStimulationModeAck { result, mode } => {
            let mode = mode.map(|mode| Value::once(Field::StimulationMode, mode.0));
            [Value::once(Field::Result, result.0)].into_iter().chain(mode).collect()
        }
        Command::InitChannelListMode(ChannelList {
            factor,
            active,
            lf,
            inter,
            main,
            execution,
        }) => {
            vec![
                Value::once(Field::LowFrequencyFactor, factor),
                Value::once(Field::ActiveChannels, active),
                Value::once(Field::ActiveLowFrequencyChannels, lf),
                Value::once(Field::InterPulseInterval, inter),
                Value::once(Field::MainStimulationInterval, main),
                Value::once(Field::ChannelExecution, execution),
            ]
        }
        Command::Watchdog | Command::GetStimulationMode | Command::Other { .. } => Vec::new(),
    }
}
