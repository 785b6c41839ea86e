//! The calls for a box.

use crate::raw::{self, BoxRecord, Called, Made, Part, Profile, Readout, Said};

/// Makes a fresh box for a ring of `capacity` bytes. Refusals: 11, then 13.
pub fn make(profile: Profile, capacity: u32) -> Made {
    // SAFETY: it takes and gives numbers alone.
    unsafe { raw::yarrowbell_make(profile, capacity) }
}

/// Gives the box the byte `n` of the line and hands back the box that this leaves. Refusals: 12, 13,
/// then 14.
pub fn byte(record: BoxRecord, buffer: &mut [u8], at: Part, n: u8) -> Called {
    // SAFETY: the pointer and the length are those of a slice lent to this call alone.
    unsafe { raw::yarrowbell_byte(record, buffer.as_mut_ptr(), buffer.len(), at, n) }
}

/// Moves the box's clock on by a tenth of a millisecond and hands back the box that this leaves.
/// Refusals: 12, 13, 14, then 15.
pub fn tick(record: BoxRecord, buffer: &mut [u8], at: Part) -> Called {
    // SAFETY: the pointer and the length are those of a slice lent to this call alone.
    unsafe { raw::yarrowbell_tick(record, buffer.as_mut_ptr(), buffer.len(), at) }
}

/// The same as [`byte`] on a box that is changed where it lies.
pub fn byte_in_place(record: &mut BoxRecord, buffer: &mut [u8], at: Part, n: u8) -> Said {
    // SAFETY: the record and the slice, of which these are the pointers and the length, are lent to
    // this call alone.
    unsafe { raw::yarrowbell_byte_in_place(record, buffer.as_mut_ptr(), buffer.len(), at, n) }
}

/// The same as [`tick`] on a box that is changed where it lies.
pub fn tick_in_place(record: &mut BoxRecord, buffer: &mut [u8], at: Part) -> Said {
    // SAFETY: the record and the slice, of which these are the pointers and the length, are lent to
    // this call alone.
    unsafe { raw::yarrowbell_tick_in_place(record, buffer.as_mut_ptr(), buffer.len(), at) }
}

/// Copies the records of the box's ring to the start of `out`, oldest first. Refusals: 12, 13, 14,
/// then 16.
pub fn readout(record: BoxRecord, buffer: &[u8], at: Part, out: &mut [u8]) -> Readout {
    let (pointer, length) = (buffer.as_ptr(), buffer.len());
    // SAFETY: each pointer and length are those of a slice, `out` lent to this call alone.
    unsafe { raw::yarrowbell_readout(record, pointer, length, at, out.as_mut_ptr(), out.len()) }
}
