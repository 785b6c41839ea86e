//! The calls for ScienceMode2 packets.

use crate::raw::rehastim2::{
    self as raw, ReadEcho, ReadEmpty, ReadList, ReadMode, ReadPacket, ReadResult, ReadVersion,
};
use crate::raw::Wrote;
use crate::rehastim2::ChannelList;

/// Reads the first packet of `bytes`, of whatever command, puts its data to the start of `out`, and
/// reports the command's values. Refusals: 1, 3, 4, then 16; 3 and 4 report the bytes used.
pub fn read(bytes: &[u8], out: &mut [u8]) -> ReadPacket {
    let (pointer, length) = (bytes.as_ptr(), bytes.len());
    // SAFETY: each pointer and length are those of a slice, `out` lent to this call alone.
    unsafe { raw::yarrowbell_rehastim2_read(pointer, length, out.as_mut_ptr(), out.len()) }
}

/// The same as [`read`] with an Init's value.
pub fn read_init(bytes: &[u8], out: &mut [u8]) -> ReadVersion {
    let (pointer, length) = (bytes.as_ptr(), bytes.len());
    // SAFETY: each pointer and length are those of a slice, `out` lent to this call alone.
    unsafe { raw::yarrowbell_rehastim2_read_init(pointer, length, out.as_mut_ptr(), out.len()) }
}

/// The same as [`read`] with an InitAck's value.
pub fn read_init_ack(bytes: &[u8], out: &mut [u8]) -> ReadResult {
    let (pointer, length) = (bytes.as_ptr(), bytes.len());
    // SAFETY: each pointer and length are those of a slice, `out` lent to this call alone.
    unsafe { raw::yarrowbell_rehastim2_read_init_ack(pointer, length, out.as_mut_ptr(), out.len()) }
}

/// The same as [`read`] with an UnknownCommand's value.
pub fn read_unknown_command(bytes: &[u8], out: &mut [u8]) -> ReadEcho {
    let (pointer, length) = (bytes.as_ptr(), bytes.len());
    let (room, size) = (out.as_mut_ptr(), out.len());
    // SAFETY: each pointer and length are those of a slice, `out` lent to this call alone.
    unsafe { raw::yarrowbell_rehastim2_read_unknown_command(pointer, length, room, size) }
}

/// The same as [`read`] without values: a Watchdog has none.
pub fn read_watchdog(bytes: &[u8], out: &mut [u8]) -> ReadEmpty {
    let (pointer, length) = (bytes.as_ptr(), bytes.len());
    // SAFETY: each pointer and length are those of a slice, `out` lent to this call alone.
    unsafe { raw::yarrowbell_rehastim2_read_watchdog(pointer, length, out.as_mut_ptr(), out.len()) }
}

/// The same as [`read`] without values: a GetStimulationMode has none.
pub fn read_get_stimulation_mode(bytes: &[u8], out: &mut [u8]) -> ReadEmpty {
    let (pointer, length) = (bytes.as_ptr(), bytes.len());
    let (room, size) = (out.as_mut_ptr(), out.len());
    // SAFETY: each pointer and length are those of a slice, `out` lent to this call alone.
    unsafe { raw::yarrowbell_rehastim2_read_get_stimulation_mode(pointer, length, room, size) }
}

/// The same as [`read`] with a GetStimulationModeAck's values.
pub fn read_get_stimulation_mode_ack(bytes: &[u8], out: &mut [u8]) -> ReadMode {
    let (pointer, length) = (bytes.as_ptr(), bytes.len());
    let (room, size) = (out.as_mut_ptr(), out.len());
    // SAFETY: each pointer and length are those of a slice, `out` lent to this call alone.
    unsafe { raw::yarrowbell_rehastim2_read_get_stimulation_mode_ack(pointer, length, room, size) }
}

/// The same as [`read`] with an InitChannelListMode's values.
pub fn read_init_channel_list_mode(bytes: &[u8], out: &mut [u8]) -> ReadList {
    let (pointer, length) = (bytes.as_ptr(), bytes.len());
    let (room, size) = (out.as_mut_ptr(), out.len());
    // SAFETY: each pointer and length are those of a slice, `out` lent to this call alone.
    unsafe { raw::yarrowbell_rehastim2_read_init_channel_list_mode(pointer, length, room, size) }
}

/// The same as [`read`] with an InitChannelListModeAck's value.
pub fn read_init_channel_list_mode_ack(bytes: &[u8], out: &mut [u8]) -> ReadResult {
    let (pointer, length) = (bytes.as_ptr(), bytes.len());
    let (room, size) = (out.as_mut_ptr(), out.len());
    // SAFETY: each pointer and length are those of a slice, `out` lent to this call alone.
    unsafe {
        raw::yarrowbell_rehastim2_read_init_channel_list_mode_ack(pointer, length, room, size)
    }
}

/// Writes an Init's packet to the start of `out`. Refusal: 16.
pub fn write_init(packet: u8, version: u8, out: &mut [u8]) -> Wrote {
    // SAFETY: the pointer and the length are those of a slice lent to this call alone.
    unsafe { raw::yarrowbell_rehastim2_write_init(packet, version, out.as_mut_ptr(), out.len()) }
}

/// Writes an InitAck's packet to the start of `out`. Refusals: 4, then 16.
pub fn write_init_ack(packet: u8, result: i8, out: &mut [u8]) -> Wrote {
    // SAFETY: the pointer and the length are those of a slice lent to this call alone.
    unsafe { raw::yarrowbell_rehastim2_write_init_ack(packet, result, out.as_mut_ptr(), out.len()) }
}

/// Writes an UnknownCommand's packet to the start of `out`. Refusal: 16.
pub fn write_unknown_command(packet: u8, echo: u8, out: &mut [u8]) -> Wrote {
    let (room, size) = (out.as_mut_ptr(), out.len());
    // SAFETY: the pointer and the length are those of a slice lent to this call alone.
    unsafe { raw::yarrowbell_rehastim2_write_unknown_command(packet, echo, room, size) }
}

/// Writes a Watchdog's packet to the start of `out`. Refusal: 16.
pub fn write_watchdog(packet: u8, out: &mut [u8]) -> Wrote {
    // SAFETY: the pointer and the length are those of a slice lent to this call alone.
    unsafe { raw::yarrowbell_rehastim2_write_watchdog(packet, out.as_mut_ptr(), out.len()) }
}

/// Writes a GetStimulationMode's packet to the start of `out`. Refusal: 16.
pub fn write_get_stimulation_mode(packet: u8, out: &mut [u8]) -> Wrote {
    let (room, size) = (out.as_mut_ptr(), out.len());
    // SAFETY: the pointer and the length are those of a slice lent to this call alone.
    unsafe { raw::yarrowbell_rehastim2_write_get_stimulation_mode(packet, room, size) }
}

/// Writes a GetStimulationModeAck's packet to the start of `out`; the mode, which is in it only if the
/// result is 0, is to be 0 if it is not. Refusals: 4, then 16.
pub fn write_get_stimulation_mode_ack(packet: u8, result: i8, mode: u8, out: &mut [u8]) -> Wrote {
    let (room, size) = (out.as_mut_ptr(), out.len());
    // SAFETY: the pointer and the length are those of a slice lent to this call alone.
    unsafe {
        raw::yarrowbell_rehastim2_write_get_stimulation_mode_ack(packet, result, mode, room, size)
    }
}

/// Writes an InitChannelListMode's packet to the start of `out`. Refusals: 4, then 16.
pub fn write_init_channel_list_mode(packet: u8, list: ChannelList, out: &mut [u8]) -> Wrote {
    let ChannelList { factor, active, lf, inter, main, execution } = list;
    let (room, size) = (out.as_mut_ptr(), out.len());
    // SAFETY: the pointer and the length are those of a slice lent to this call alone.
    unsafe {
        raw::yarrowbell_rehastim2_write_init_channel_list_mode(
            packet, factor, active, lf, inter, main, execution, room, size,
        )
    }
}

/// Writes an InitChannelListModeAck's packet to the start of `out`. Refusals: 4, then 16.
pub fn write_init_channel_list_mode_ack(packet: u8, result: i8, out: &mut [u8]) -> Wrote {
    let (room, size) = (out.as_mut_ptr(), out.len());
    // SAFETY: the pointer and the length are those of a slice lent to this call alone.
    unsafe {
        raw::yarrowbell_rehastim2_write_init_channel_list_mode_ack(packet, result, room, size)
    }
}
