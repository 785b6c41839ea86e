//! The independent codec's packets in the library's records and calls.

use independent::rehastim2::{self as independently, Command, Reading};
use yarrowbell::calls::rehastim2 as calls;
use yarrowbell::raw::rehastim2::ReadPacket;
use yarrowbell::raw::Wrote;
use yarrowbell::rehastim2::{self, ChannelList, ErrorCode, StimulationMode};

/// What the export for any command reports.
pub fn report(reading: &Reading) -> ReadPacket {
    let all = ReadPacket {
        used: reading.used,
        answer: reading.answer,
        packet: reading.packet,
        size: reading.data.len() as u8,
        ..ReadPacket::default()
    };
    reading.command.map_or(all, |command| with_command(all, command))
}

/// The report of a packet with this command, given the report without it.
pub fn with_command(mut all: ReadPacket, command: Command) -> ReadPacket {
    all.command = command.number();
    match command {
        Command::Init { version } => all.version = version,
        Command::UnknownCommand { echo } => all.echo = echo,
        Command::InitAck { result } | Command::InitChannelListModeAck { result } => {
            all.result = result;
        }
        Command::GetStimulationModeAck { result, mode } => {
            (all.result, all.mode) = (result, mode);
        }
        Command::InitChannelListMode(list) => {
            all.factor = list.low_frequency_factor;
            all.active = list.active_channels;
            all.lf = list.active_low_frequency_channels;
            all.inter = list.inter_pulse_interval;
            all.main = list.main_stimulation_interval;
            all.execution = list.channel_execution.into();
        }
        Command::Watchdog | Command::GetStimulationMode | Command::Other { .. } => {}
    }
    all
}

pub fn command(command: &Command) -> rehastim2::Command {
    match *command {
        Command::Init { version } => rehastim2::Command::Init { version },
        Command::InitAck { result } => rehastim2::Command::InitAck { result: ErrorCode(result) },
        Command::UnknownCommand { echo } => rehastim2::Command::UnknownCommand { echo },
        Command::Watchdog => rehastim2::Command::Watchdog,
        Command::GetStimulationMode => rehastim2::Command::GetStimulationMode,
        Command::GetStimulationModeAck { result, mode } => {
            let there = result == 0 || mode != 0;
            let mode = there.then_some(StimulationMode(mode));
            rehastim2::Command::GetStimulationModeAck { result: ErrorCode(result), mode }
        }
        Command::InitChannelListMode(list) => {
            rehastim2::Command::InitChannelListMode(channel_list(&list))
        }
        Command::InitChannelListModeAck { result } => {
            rehastim2::Command::InitChannelListModeAck { result: ErrorCode(result) }
        }
        Command::Other { number } => rehastim2::Command::Other { number },
    }
}

pub fn channel_list(list: &independently::ChannelList) -> ChannelList {
    ChannelList {
        factor: list.low_frequency_factor,
        active: list.active_channels,
        lf: list.active_low_frequency_channels,
        inter: list.inter_pulse_interval,
        main: list.main_stimulation_interval,
        execution: list.channel_execution,
    }
}

/// Writes by the command's export; a command that is not carried has none, and changes nothing here.
pub fn write(packet: u8, command: Command, out: &mut [u8]) -> Option<Wrote> {
    Some(match command {
        Command::Init { version } => calls::write_init(packet, version, out),
        Command::InitAck { result } => calls::write_init_ack(packet, result, out),
        Command::UnknownCommand { echo } => calls::write_unknown_command(packet, echo, out),
        Command::Watchdog => calls::write_watchdog(packet, out),
        Command::GetStimulationMode => calls::write_get_stimulation_mode(packet, out),
        Command::GetStimulationModeAck { result, mode } => {
            calls::write_get_stimulation_mode_ack(packet, result, mode, out)
        }
        Command::InitChannelListMode(list) => {
            calls::write_init_channel_list_mode(packet, channel_list(&list), out)
        }
        Command::InitChannelListModeAck { result } => {
            calls::write_init_channel_list_mode_ack(packet, result, out)
        }
        Command::Other { .. } => return None,
    })
}
