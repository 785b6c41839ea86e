//! The calls for a ring by itself.

use crate::raw::{self, Part, Pushed, Readout, Ring};

/// Whether the ring is there as its numbers say: 0, or else 12, 13 or 14, the first that holds.
pub fn ring_ready(buffer: &[u8], at: Part, ring: Ring) -> u8 {
    // SAFETY: the pointer and the length are those of a slice lent for the call.
    unsafe { raw::yarrowbell_ring_ready(buffer.as_ptr(), buffer.len(), at, ring) }
}

/// Pushes a record of kind 01: a command was given an answer. Old records are dropped until it fits.
/// Refusals: 12, then 13.
pub fn ring_push_answer(
    buffer: &mut [u8],
    at: Part,
    ring: Ring,
    clock: u32,
    ident: u8,
    answer: u8,
) -> Pushed {
    let (pointer, length) = (buffer.as_mut_ptr(), buffer.len());
    // SAFETY: the pointer and the length are those of a slice lent to this call alone.
    unsafe { raw::yarrowbell_ring_push_answer(pointer, length, at, ring, clock, ident, answer) }
}

/// The same as [`ring_push_answer`] with a record of kind 02: a pulse of `width` microseconds and
/// `current` milliamps was released.
pub fn ring_push_pulse(
    buffer: &mut [u8],
    at: Part,
    ring: Ring,
    clock: u32,
    channel: u8,
    width: u16,
    current: u8,
) -> Pushed {
    let (pointer, length) = (buffer.as_mut_ptr(), buffer.len());
    // SAFETY: the pointer and the length are those of a slice lent to this call alone.
    unsafe {
        raw::yarrowbell_ring_push_pulse(pointer, length, at, ring, clock, channel, width, current)
    }
}

/// The same as [`ring_push_answer`] with a record of kind 03: the box tripped.
pub fn ring_push_trip(buffer: &mut [u8], at: Part, ring: Ring, clock: u32, cause: u8) -> Pushed {
    let (pointer, length) = (buffer.as_mut_ptr(), buffer.len());
    // SAFETY: the pointer and the length are those of a slice lent to this call alone.
    unsafe { raw::yarrowbell_ring_push_trip(pointer, length, at, ring, clock, cause) }
}

/// Copies the ring's records to the start of `out`, oldest first. Refusals: 12, 13, 14, then 16.
pub fn ring_read_out(buffer: &[u8], at: Part, ring: Ring, out: &mut [u8]) -> Readout {
    let (pointer, length) = (buffer.as_ptr(), buffer.len());
    // SAFETY: each pointer and length are those of a slice, `out` lent to this call alone.
    unsafe { raw::yarrowbell_ring_read_out(pointer, length, at, ring, out.as_mut_ptr(), out.len()) }
}
