//! The pulse of an Ll_channel_config, to be drawn.

use super::field::Field;
use crate::packet::field::Field as _;
use crate::picture::pulse::Panel;
use yarrowbell::rehamove3::{ChannelConfig, Command, NotWritten, Packet};

/// That of a packet that was read, if it has one.
pub fn of_packet(packet: &Packet) -> Option<Panel> {
    let Command::LlChannelConfig(config) = &packet.command else { return None };
    Some(panel("", config, packet.charge))
}

/// That of a command as it was written, or as it was refused for its net charge.
pub fn of_command(command: &Command, written: Result<usize, NotWritten>) -> Option<Panel> {
    let Command::LlChannelConfig(config) = command else { return None };
    match written {
        Ok(_) => Some(panel("", config, 0)),
        Err(NotWritten::NotBalanced { charge }) => {
            Some(panel("refused with answer 4: ", config, charge))
        }
        Err(_) => None,
    }
}

fn panel(before: &str, config: &ChannelConfig, net: i32) -> Panel {
    let channel = Field::ChannelSelection.word(config.channel.into()).unwrap_or_default();
    let execution = Field::ExecutionStimulation.word(config.execution.into()).unwrap_or_default();
    let title = format!("{before}Ll_channel_config, channel {channel}, {execution}");
    Panel { title, points: config.pulse.points().to_vec(), net }
}
