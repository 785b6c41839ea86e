//! The calls for packets of the RehaMove3.

use crate::raw::rehamove3::{
    self as raw, Pulse, ReadConfig, ReadElectrode, ReadEmpty, ReadPacket, ReadResult, ReadVoltage,
    Weighed,
};
use crate::raw::Wrote;

/// Reads the first packet of `bytes`, of whatever command, puts its data to the start of `out`, and
/// reports the command's values. Refusals: 1, 3, 4, then 16; 3 and 4 report the bytes used.
pub fn read(bytes: &[u8], out: &mut [u8]) -> ReadPacket {
    let (pointer, length) = (bytes.as_ptr(), bytes.len());
    let (room, size) = (out.as_mut_ptr(), out.len());
    // SAFETY: each pointer and length are those of a slice, `out` lent to this call alone.
    unsafe { raw::yarrowbell_rehamove3_read(pointer, length, room, size) }
}

/// The same as [`read`] with an Ll_init's value.
pub fn read_ll_init(bytes: &[u8], out: &mut [u8]) -> ReadVoltage {
    let (pointer, length) = (bytes.as_ptr(), bytes.len());
    let (room, size) = (out.as_mut_ptr(), out.len());
    // SAFETY: each pointer and length are those of a slice, `out` lent to this call alone.
    unsafe { raw::yarrowbell_rehamove3_read_ll_init(pointer, length, room, size) }
}

/// The same as [`read`] with an Ll_init_ack's value.
pub fn read_ll_init_ack(bytes: &[u8], out: &mut [u8]) -> ReadResult {
    let (pointer, length) = (bytes.as_ptr(), bytes.len());
    let (room, size) = (out.as_mut_ptr(), out.len());
    // SAFETY: each pointer and length are those of a slice, `out` lent to this call alone.
    unsafe { raw::yarrowbell_rehamove3_read_ll_init_ack(pointer, length, room, size) }
}

/// The same as [`read`] with an Ll_channel_config's values.
pub fn read_ll_channel_config(bytes: &[u8], out: &mut [u8]) -> ReadConfig {
    let (pointer, length) = (bytes.as_ptr(), bytes.len());
    let (room, size) = (out.as_mut_ptr(), out.len());
    // SAFETY: each pointer and length are those of a slice, `out` lent to this call alone.
    unsafe { raw::yarrowbell_rehamove3_read_ll_channel_config(pointer, length, room, size) }
}

/// The same as [`read`] with an Ll_channel_config_ack's values.
pub fn read_ll_channel_config_ack(bytes: &[u8], out: &mut [u8]) -> ReadElectrode {
    let (pointer, length) = (bytes.as_ptr(), bytes.len());
    let (room, size) = (out.as_mut_ptr(), out.len());
    // SAFETY: each pointer and length are those of a slice, `out` lent to this call alone.
    unsafe { raw::yarrowbell_rehamove3_read_ll_channel_config_ack(pointer, length, room, size) }
}

/// The same as [`read`] without values: an Ll_stop has none.
pub fn read_ll_stop(bytes: &[u8], out: &mut [u8]) -> ReadEmpty {
    let (pointer, length) = (bytes.as_ptr(), bytes.len());
    let (room, size) = (out.as_mut_ptr(), out.len());
    // SAFETY: each pointer and length are those of a slice, `out` lent to this call alone.
    unsafe { raw::yarrowbell_rehamove3_read_ll_stop(pointer, length, room, size) }
}

/// The same as [`read`] with an Ll_stop_ack's value.
pub fn read_ll_stop_ack(bytes: &[u8], out: &mut [u8]) -> ReadResult {
    let (pointer, length) = (bytes.as_ptr(), bytes.len());
    let (room, size) = (out.as_mut_ptr(), out.len());
    // SAFETY: each pointer and length are those of a slice, `out` lent to this call alone.
    unsafe { raw::yarrowbell_rehamove3_read_ll_stop_ack(pointer, length, room, size) }
}

/// Writes an Ll_init's packet to the start of `out`. Refusals: 4, then 16.
pub fn write_ll_init(packet: u8, voltage: u8, out: &mut [u8]) -> Wrote {
    let (room, size) = (out.as_mut_ptr(), out.len());
    // SAFETY: the pointer and the length are those of a slice lent to this call alone.
    unsafe { raw::yarrowbell_rehamove3_write_ll_init(packet, voltage, room, size) }
}

/// Writes an Ll_init_ack's packet to the start of `out`. Refusals: 4, then 16.
pub fn write_ll_init_ack(packet: u8, result: u8, out: &mut [u8]) -> Wrote {
    let (room, size) = (out.as_mut_ptr(), out.len());
    // SAFETY: the pointer and the length are those of a slice lent to this call alone.
    unsafe { raw::yarrowbell_rehamove3_write_ll_init_ack(packet, result, room, size) }
}

/// Writes an Ll_channel_config's packet to the start of `out`, if the net charge of its pulse is zero. Refusals: 4, then 16.
pub fn write_ll_channel_config(
    packet: u8,
    execution: u8,
    channel: u8,
    pulse: Pulse,
    out: &mut [u8],
) -> Wrote {
    let (room, size) = (out.as_mut_ptr(), out.len());
    // SAFETY: the pointer and the length are those of a slice lent to this call alone.
    unsafe {
        raw::yarrowbell_rehamove3_write_ll_channel_config(
            packet, execution, channel, pulse, room, size,
        )
    }
}

/// Writes an Ll_channel_config_ack's packet to the start of `out`. Refusals: 4, then 16.
pub fn write_ll_channel_config_ack(packet: u8, result: u8, electrode: u8, out: &mut [u8]) -> Wrote {
    let (room, size) = (out.as_mut_ptr(), out.len());
    // SAFETY: the pointer and the length are those of a slice lent to this call alone.
    unsafe {
        raw::yarrowbell_rehamove3_write_ll_channel_config_ack(packet, result, electrode, room, size)
    }
}

/// Writes an Ll_stop's packet to the start of `out`. Refusals: 4, then 16.
pub fn write_ll_stop(packet: u8, out: &mut [u8]) -> Wrote {
    let (room, size) = (out.as_mut_ptr(), out.len());
    // SAFETY: the pointer and the length are those of a slice lent to this call alone.
    unsafe { raw::yarrowbell_rehamove3_write_ll_stop(packet, room, size) }
}

/// Writes an Ll_stop_ack's packet to the start of `out`. Refusals: 4, then 16.
pub fn write_ll_stop_ack(packet: u8, result: u8, out: &mut [u8]) -> Wrote {
    let (room, size) = (out.as_mut_ptr(), out.len());
    // SAFETY: the pointer and the length are those of a slice lent to this call alone.
    unsafe { raw::yarrowbell_rehamove3_write_ll_stop_ack(packet, result, room, size) }
}

/// Weighs a pulse: its net charge. Refusal: 4.
pub fn charge(pulse: Pulse) -> Weighed {
    // SAFETY: it is given a number of points and the points by value, and nothing is lent.
    unsafe { raw::yarrowbell_rehamove3_charge(pulse) }
}
