//! The commands, with the tables of sections 4.1 to 4.3.

use crate::packets::whole;
use nom::combinator::{map, success};
use nom::number::complete::{be_u16, i8, u8};
use nom::sequence::tuple;
use nom::IResult;

/// InitChannelListMode.
#[derive(Clone, Copy, Debug, Default, PartialEq, Eq)]
pub struct ChannelList {
    pub low_frequency_factor: u8,
    pub active_channels: u8,
    pub active_low_frequency_channels: u8,
    pub inter_pulse_interval: u8,
    pub main_stimulation_interval: u16,
    pub channel_execution: u8,
}

/// A command of section 3. The mode of a GetStimulationModeAck is 0 where the result is not.
#[derive(Clone, Copy, Debug, PartialEq, Eq)]
pub enum Command {
    Init { version: u8 },
    InitAck { result: i8 },
    UnknownCommand { echo: u8 },
    Watchdog,
    GetStimulationMode,
    GetStimulationModeAck { result: i8, mode: u8 },
    InitChannelListMode(ChannelList),
    InitChannelListModeAck { result: i8 },
    Other { number: u8 },
}

impl Command {
    /// The value of section 3.
    pub fn number(&self) -> u8 {
        match self {
            Command::Init { .. } => 1,
            Command::InitAck { .. } => 2,
            Command::UnknownCommand { .. } => 3,
            Command::Watchdog => 4,
            Command::GetStimulationMode => 10,
            Command::GetStimulationModeAck { .. } => 11,
            Command::InitChannelListMode(_) => 30,
            Command::InitChannelListModeAck { .. } => 31,
            Command::Other { number } => *number,
        }
    }

    /// The command data, whether or not the values are good. Of another command there is none.
    pub fn data(&self) -> Vec<u8> {
        match *self {
            Command::Init { version: byte } | Command::UnknownCommand { echo: byte } => vec![byte],
            Command::InitAck { result }
            | Command::InitChannelListModeAck { result }
            | Command::GetStimulationModeAck { result: result @ (..=-1 | 1..), .. } => {
                result.to_be_bytes().to_vec()
            }
            Command::GetStimulationModeAck { result: 0, mode } => vec![0, mode],
            Command::Watchdog | Command::GetStimulationMode | Command::Other { .. } => vec![],
            Command::InitChannelListMode(list) => {
                let [msb, lsb] = list.main_stimulation_interval.to_be_bytes();
                vec![
                    list.low_frequency_factor,
                    list.active_channels,
                    list.active_low_frequency_channels,
                    list.inter_pulse_interval,
                    msb,
                    lsb,
                    list.channel_execution,
                ]
            }
        }
    }

    /// The command of this number and this data; none if it cannot have this data.
    pub(super) fn of_data(number: u8, data: &[u8]) -> Option<Command> {
        let command = match number {
            1 => Command::Init { version: whole(u8, data)? },
            2 => Command::InitAck { result: whole(i8, data)? },
            3 => Command::UnknownCommand { echo: whole(u8, data)? },
            4 => whole(success(Command::Watchdog), data)?,
            10 => whole(success(Command::GetStimulationMode), data)?,
            11 => {
                let (result, mode) = whole(result_and_mode, data)?;
                Command::GetStimulationModeAck { result, mode }
            }
            30 => Command::InitChannelListMode(whole(channel_list, data)?),
            31 => Command::InitChannelListModeAck { result: whole(i8, data)? },
            _ => return Some(Command::Other { number }),
        };
        command.good().then_some(command)
    }

    /// Whether this is one of the commands that request 12 names, every value of it in the range that
    /// its table gives.
    pub(super) fn good(&self) -> bool {
        match *self {
            Command::Init { .. }
            | Command::UnknownCommand { .. }
            | Command::Watchdog
            | Command::GetStimulationMode => true,
            Command::InitAck { result } | Command::InitChannelListModeAck { result } => {
                good_result(result)
            }
            Command::GetStimulationModeAck { result: 0, mode } => mode <= 2,
            Command::GetStimulationModeAck { result, mode } => good_result(result) && mode == 0,
            Command::InitChannelListMode(list) => {
                list.low_frequency_factor <= 7
                    && list.main_stimulation_interval <= 2048
                    && list.channel_execution <= 1
            }
            Command::Other { .. } => false,
        }
    }
}

/// "Signed bytes from 0 down to −8".
fn good_result(result: i8) -> bool {
    (-8..=0).contains(&result)
}

/// "If Result ≠ 0, then byte 8 = stop byte".
fn result_and_mode(data: &[u8]) -> IResult<&[u8], (i8, u8)> {
    let (data, result) = i8(data)?;
    let (data, mode) = if result == 0 { u8(data)? } else { (data, 0) };
    Ok((data, (result, mode)))
}

/// Bytes 7 to 13, "Main stimulation interval coded" with its MSB first.
fn channel_list(data: &[u8]) -> IResult<&[u8], ChannelList> {
    let of_fields = |(factor, active, low, inter, main, execution)| ChannelList {
        low_frequency_factor: factor,
        active_channels: active,
        active_low_frequency_channels: low,
        inter_pulse_interval: inter,
        main_stimulation_interval: main,
        channel_execution: execution,
    };
    map(tuple((u8, u8, u8, u8, be_u16, u8)), of_fields)(data)
}
