//! The low-level commands, with the tables of sections 4.1 to 4.3.

use super::bits::{bytes, fields, Layout};
use super::pulse::{Point, Pulse};
use crate::packets::whole;
use nom::combinator::{map_opt, success};
use nom::multi::count;
use nom::number::complete::u8;
use nom::sequence::pair;
use nom::IResult;

/// Reserved, high voltage, reserved.
const LL_INIT: Layout<3> = [4, 3, 1];

/// Execution, channel, reserved, number of points less one.
const LL_CHANNEL_CONFIG: Layout<4> = [1, 2, 1, 4];

/// Ll_channel_config.
#[derive(Clone, Copy, Debug, Default, PartialEq, Eq)]
pub struct ChannelConfig {
    pub execution: u8,
    pub channel: u8,
    pub pulse: Pulse,
}

/// A command of section 4, or another one.
#[derive(Clone, Copy, Debug, PartialEq, Eq)]
pub enum Command {
    LlInit { voltage: u8 },
    LlInitAck { result: u8 },
    LlChannelConfig(ChannelConfig),
    LlChannelConfigAck { result: u8, electrode: u8 },
    LlStop,
    LlStopAck { result: u8 },
    Other { number: u16 },
}

impl Command {
    /// The command number of section 4.1.
    pub fn number(&self) -> u16 {
        match self {
            Command::LlInit { .. } => 0,
            Command::LlInitAck { .. } => 1,
            Command::LlChannelConfig(_) => 2,
            Command::LlChannelConfigAck { .. } => 3,
            Command::LlStop => 4,
            Command::LlStopAck { .. } => 5,
            Command::Other { number } => *number,
        }
    }

    /// The command data, whether or not the values are good; one too great for its bits loses what is
    /// above. Of another command there is none.
    pub fn data(&self) -> Vec<u8> {
        match *self {
            Command::LlInit { voltage } => bytes(LL_INIT, [0, voltage.into(), 0]),
            Command::LlInitAck { result } | Command::LlStopAck { result } => vec![result],
            Command::LlChannelConfig(config) => config.data(),
            Command::LlChannelConfigAck { result, electrode } => vec![result, electrode],
            Command::LlStop | Command::Other { .. } => vec![],
        }
    }

    /// The net charge of the pulse, in half milliamp microseconds; 0 if there is none.
    pub fn charge(&self) -> i32 {
        match self {
            Command::LlChannelConfig(config) => config.pulse.charge().unwrap_or_default(),
            _ => 0,
        }
    }

    /// The command of this number and this data; none if it cannot have this data.
    pub(super) fn of_data(number: u16, data: &[u8]) -> Option<Command> {
        let command = match number {
            0 => Command::LlInit { voltage: whole(high_voltage, data)? },
            1 => Command::LlInitAck { result: whole(u8, data)? },
            2 => Command::LlChannelConfig(whole(ChannelConfig::of_data, data)?),
            3 => {
                let (result, electrode) = whole(pair(u8, u8), data)?;
                Command::LlChannelConfigAck { result, electrode }
            }
            4 => whole(success(Command::LlStop), data)?,
            5 => Command::LlStopAck { result: whole(u8, data)? },
            _ => return Some(Command::Other { number }),
        };
        command.good().then_some(command)
    }

    /// Whether this is one of the commands that request 13 names, every value of it good.
    pub(super) fn good(&self) -> bool {
        match *self {
            Command::LlInit { voltage } => voltage <= 6,
            Command::LlInitAck { result } | Command::LlStopAck { result } => good_result(result),
            Command::LlChannelConfig(config) => {
                config.execution <= 1 && config.channel <= 3 && config.pulse.good()
            }
            Command::LlChannelConfigAck { result, electrode } => {
                good_result(result) && (result != ELECTRODE_ERROR || electrode <= 3)
            }
            Command::LlStop => true,
            Command::Other { .. } => false,
        }
    }
}

/// Section 6.
const ELECTRODE_ERROR: u8 = 10;

fn good_result(result: u8) -> bool {
    [0, 1, 2, 4, 7, ELECTRODE_ERROR, 11].contains(&result)
}

fn high_voltage(data: &[u8]) -> IResult<&[u8], u8> {
    let voltage =
        |[before, voltage, behind]: [u16; 3]| (before == 0 && behind == 0).then_some(voltage as u8);
    map_opt(fields(LL_INIT), voltage)(data)
}

impl ChannelConfig {
    fn of_data(data: &[u8]) -> IResult<&[u8], ChannelConfig> {
        let first = |[execution, channel, reserved, less]: [u16; 4]| {
            (reserved == 0).then_some((execution as u8, channel as u8, usize::from(less) + 1))
        };
        let (behind, (execution, channel, number)) =
            map_opt(fields(LL_CHANNEL_CONFIG), first)(data)?;
        let (rest, points) = count(Point::of_data, number)(behind)?;
        Ok((rest, ChannelConfig { execution, channel, pulse: Pulse::of_points(&points) }))
    }

    fn data(&self) -> Vec<u8> {
        let less = self.pulse.number.wrapping_sub(1);
        let first = [self.execution.into(), self.channel.into(), 0, less];
        let mut data = bytes(LL_CHANNEL_CONFIG, first);
        data.extend(self.pulse.used().iter().flat_map(Point::data));
        data
    }
}
