//! The values of the commands.

use super::{LL_CHANNEL_CONFIG, LL_CHANNEL_CONFIG_ACK, LL_INIT, LL_INIT_ACK, LL_STOP, LL_STOP_ACK};
use crate::rehamove3::{ChannelConfig, Command, Point, Pulse};

/// The command of this number and this data, with its net charge; none if it cannot have this data.
#[inline(always)]
pub(super) fn command(number: u16, data: &[u8]) -> Option<(Command, i32)> {
    let command = match (number, data) {
        (LL_CHANNEL_CONFIG, [first, points @ ..]) => return config(*first, points),
        (LL_INIT, &[byte]) if byte & 0xF1 == 0 && good_voltage(byte >> 1) => {
            Command::LlInit { voltage: byte >> 1 }
        }
        (LL_INIT_ACK, &[result]) if good_result(result) => Command::LlInitAck { result },
        (LL_CHANNEL_CONFIG_ACK, &[result, electrode]) if good_electrode(result, electrode) => {
            Command::LlChannelConfigAck { result, electrode }
        }
        (LL_STOP, []) => Command::LlStop,
        (LL_STOP_ACK, &[result]) if good_result(result) => Command::LlStopAck { result },
        (LL_INIT..=LL_STOP_ACK, _) => return None,
        (number, _) => Command::Other { number },
    };
    Some((command, 0))
}

#[inline(always)]
fn config(first: u8, points: &[u8]) -> Option<(Command, i32)> {
    let (words, rest) = points.as_chunks::<4>();
    let number = usize::from(first & 0x0F) + 1;
    if !rest.is_empty() || words.len() != number || first & 0x10 != 0 {
        return None;
    }
    let mut pulse = Pulse { number: number as u16, ..Pulse::default() };
    let (mut good, mut charge) = (true, 0);
    for (point, word) in pulse.points.iter_mut().zip(words) {
        let word = u32::from_be_bytes(*word);
        *point = Point { duration: (word >> 20) as u16, code: (word >> 10 & 0x3FF) as u16 };
        good &= good_code(point.code) & (word & 0x3FF == 0);
        charge += point_charge(point);
    }
    let config = ChannelConfig { execution: first >> 7, channel: first >> 5 & 3, pulse };
    good.then_some((Command::LlChannelConfig(config), charge))
}

#[inline(always)]
pub(super) fn good_voltage(voltage: u8) -> bool {
    voltage <= 6
}

#[inline(always)]
pub(super) fn good_result(result: u8) -> bool {
    matches!(result, 0 | 1 | 2 | 4 | 7 | 10 | 11)
}

/// The channel is that of an electrode error alone.
#[inline(always)]
pub(super) fn good_electrode(result: u8, electrode: u8) -> bool {
    good_result(result) & ((result != 10) | (electrode <= 3))
}

/// Whether a config can be written: its points good, all behind them zeros, and no net charge.
#[inline(always)]
pub(super) fn good_config(config: &ChannelConfig) -> bool {
    let ChannelConfig { execution, channel, pulse } = config;
    if (*execution > 1) | (*channel > 3) | !(1..=16).contains(&pulse.number) {
        return false;
    }
    let (used, unused) = pulse.points.split_at(pulse.number.into());
    let (mut good, mut charge) = (true, 0_i32);
    for point in used {
        good &= (point.duration <= 4095) & good_code(point.code);
        charge = charge.wrapping_add(point_charge(point));
    }
    good & (charge == 0) & unused.iter().all(|point| *point == Point::default())
}

#[inline(always)]
fn good_code(code: u16) -> bool {
    (40..=560).contains(&code)
}

/// Of a point that is not good any number.
#[inline(always)]
fn point_charge(point: &Point) -> i32 {
    i32::from(point.duration).wrapping_mul(i32::from(point.code) - 300)
}
