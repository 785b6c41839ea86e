//! The writer: 4, 16.

use super::checksum::checksum;
use super::values::{good_config, good_electrode, good_result, good_voltage};
use super::{
    AROUND, LL_CHANNEL_CONFIG, LL_CHANNEL_CONFIG_ACK, LL_INIT, LL_INIT_ACK, LL_STOP, LL_STOP_ACK,
    MOST_CARRIED,
};
use crate::plain::answer::{NOT_GOOD, OUTPUT_TOO_SHORT};
use crate::plain::codec::Wrote;
use crate::plain::packets::{is_stuffed, stuff, KEY, START, STOP, STUFFING};
use crate::rehamove3::{ChannelConfig, Command};

/// Writes the packet of a command to the start of `out`.
#[inline(never)]
pub fn write(packet: u8, command: Command, out: &mut [u8]) -> Wrote {
    if packet > 63 {
        return Wrote::refused(NOT_GOOD);
    }
    // No carried command's number has a bit in the first byte.
    let first = packet << 2;
    match command {
        Command::LlInit { voltage } if good_voltage(voltage) => {
            put(&[first, LL_INIT as u8, voltage << 1], out)
        }
        Command::LlInitAck { result } if good_result(result) => {
            put(&[first, LL_INIT_ACK as u8, result], out)
        }
        Command::LlChannelConfig(config) if good_config(&config) => {
            let (plain, length) = config_bytes(first, &config);
            put(&plain[..length], out)
        }
        Command::LlChannelConfigAck { result, electrode } if good_electrode(result, electrode) => {
            put(&[first, LL_CHANNEL_CONFIG_ACK as u8, result, electrode], out)
        }
        Command::LlStop => put(&[first, LL_STOP as u8], out),
        Command::LlStopAck { result } if good_result(result) => {
            put(&[first, LL_STOP_ACK as u8, result], out)
        }
        _ => Wrote::refused(NOT_GOOD),
    }
}

/// The bytes of an Ll_channel_config, and how many of them there are.
#[inline(always)]
fn config_bytes(first: u8, config: &ChannelConfig) -> ([u8; MOST_CARRIED], usize) {
    let number = usize::from(config.pulse.number);
    let mut plain = [0; MOST_CARRIED];
    plain[0] = first;
    plain[1] = LL_CHANNEL_CONFIG as u8;
    plain[2] = config.execution << 7 | config.channel << 5 | (number - 1) as u8;
    let (words, _) = plain[3..].as_chunks_mut::<4>();
    for (word, point) in words.iter_mut().zip(&config.pulse.points[..number]) {
        *word = (u32::from(point.duration) << 20 | u32::from(point.code) << 10).to_be_bytes();
    }
    (plain, 3 + 4 * number)
}

/// Writes the packet of these bytes.
#[inline(always)]
fn put(plain: &[u8], out: &mut [u8]) -> Wrote {
    // In a byte, of which sixteen are added at a time.
    let more = plain.iter().fold(0_u8, |more, &byte| more.wrapping_add(is_stuffed(byte).into()));
    let used = AROUND + plain.len() + usize::from(more);
    let Some((header, [content @ .., stop])) =
        out.get_mut(..used).and_then(|out| out.split_first_chunk_mut::<{ AROUND - 1 }>())
    else {
        return Wrote::refused(OUTPUT_TOO_SHORT);
    };
    let sum = if more == 0 {
        content.copy_from_slice(plain);
        checksum(plain)
    } else {
        stuff(plain, content);
        checksum(content)
    };
    let [long, short] = (used as u16).to_be_bytes().map(|byte| byte ^ KEY);
    let [high, low] = sum.to_be_bytes().map(|byte| byte ^ KEY);
    *header = [START, STUFFING, long, STUFFING, short, STUFFING, high, STUFFING, low];
    *stop = STOP;
    Wrote::all(used)
}
