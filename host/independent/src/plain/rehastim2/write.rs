//! The writer: 4, 16.

use super::checksum::checksum;
use super::values::{good_list, good_mode, good_result};
use super::{
    GET_STIMULATION_MODE, GET_STIMULATION_MODE_ACK, INIT, INIT_ACK, INIT_CHANNEL_LIST_MODE,
    INIT_CHANNEL_LIST_MODE_ACK, UNKNOWN_COMMAND, WATCHDOG,
};
use crate::plain::answer::{NOT_GOOD, OUTPUT_TOO_SHORT};
use crate::plain::codec::Wrote;
use crate::plain::packets::{is_stuffed, stuff, KEY, START, STOP, STUFFING};
use crate::rehastim2::Command;

/// Writes the packet of a command to the start of `out`.
#[inline(never)]
pub fn write(packet: u8, command: Command, out: &mut [u8]) -> Wrote {
    match command {
        Command::Init { version } => put([packet, INIT, version], out),
        Command::InitAck { result } if good_result(result) => {
            put([packet, INIT_ACK, result as u8], out)
        }
        Command::UnknownCommand { echo } => put([packet, UNKNOWN_COMMAND, echo], out),
        Command::Watchdog => put([packet, WATCHDOG], out),
        Command::GetStimulationMode => put([packet, GET_STIMULATION_MODE], out),
        Command::GetStimulationModeAck { result, mode } if good_mode(result, mode) => {
            if result == 0 {
                put([packet, GET_STIMULATION_MODE_ACK, 0, mode], out)
            } else {
                put([packet, GET_STIMULATION_MODE_ACK, result as u8], out)
            }
        }
        Command::InitChannelListMode(list) if good_list(&list) => {
            let [msb, lsb] = list.main_stimulation_interval.to_be_bytes();
            let plain = [
                packet,
                INIT_CHANNEL_LIST_MODE,
                list.low_frequency_factor,
                list.active_channels,
                list.active_low_frequency_channels,
                list.inter_pulse_interval,
                msb,
                lsb,
                list.channel_execution,
            ];
            put(plain, out)
        }
        Command::InitChannelListModeAck { result } if good_result(result) => {
            put([packet, INIT_CHANNEL_LIST_MODE_ACK, result as u8], out)
        }
        _ => Wrote::refused(NOT_GOOD),
    }
}

/// Start, checksum and length, and the stop.
const AROUND: usize = 1 + 2 + 2 + 1;

/// Writes the packet of these bytes.
#[inline(always)]
fn put<const N: usize>(plain: [u8; N], out: &mut [u8]) -> Wrote {
    let more = plain.iter().filter(|&&byte| is_stuffed(byte)).count();
    let used = AROUND + N + more;
    let Some([start, first, sum, second, length, covered @ .., stop]) = out.get_mut(..used) else {
        return Wrote::refused(OUTPUT_TOO_SHORT);
    };
    (*start, *first, *second, *stop) = (START, STUFFING, STUFFING, STOP);
    *length = (N + more) as u8 ^ KEY;
    *sum = KEY
        ^ if more == 0 {
            covered.copy_from_slice(&plain);
            checksum(&plain)
        } else {
            stuff(&plain, covered);
            checksum(covered)
        };
    Wrote::all(used)
}
