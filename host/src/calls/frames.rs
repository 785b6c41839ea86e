//! The calls for frames.

use crate::raw::{
    self, Init, ReadInit, ReadSingle, ReadStop, ReadUpdate, Setting, Settings, Single, Wrote,
};

/// Reads the frame at the start of `bytes`, of whatever command, for a list of `count` channels, and
/// reports an Init's variables. Refusals: 4 for the count, 1 for no byte, 2, 1 for too few bytes, 17,
/// 3, then 4 for a value.
pub fn read_init(bytes: &[u8], count: usize) -> ReadInit {
    // SAFETY: the pointer and the length are those of a slice lent for the call.
    unsafe { raw::yarrowbell_read_init(bytes.as_ptr(), bytes.len(), count) }
}

/// The same as [`read_init`] with an Update's settings.
pub fn read_update(bytes: &[u8], count: usize) -> ReadUpdate {
    // SAFETY: the pointer and the length are those of a slice lent for the call.
    unsafe { raw::yarrowbell_read_update(bytes.as_ptr(), bytes.len(), count) }
}

/// The same as [`read_init`] without variables: a Stop has none.
pub fn read_stop(bytes: &[u8], count: usize) -> ReadStop {
    // SAFETY: the pointer and the length are those of a slice lent for the call.
    unsafe { raw::yarrowbell_read_stop(bytes.as_ptr(), bytes.len(), count) }
}

/// The same as [`read_init`] with a Single's variables.
pub fn read_single(bytes: &[u8], count: usize) -> ReadSingle {
    // SAFETY: the pointer and the length are those of a slice lent for the call.
    unsafe { raw::yarrowbell_read_single(bytes.as_ptr(), bytes.len(), count) }
}

/// Writes an Init's frame to the start of `out`. Refusals: 4, then 16.
pub fn write_init(init: Init, out: &mut [u8]) -> Wrote {
    // SAFETY: the pointer and the length are those of a slice lent to this call alone.
    unsafe { raw::yarrowbell_write_init(init, out.as_mut_ptr(), out.len()) }
}

/// Writes an Update's frame for a list of `count` channels to the start of `out`. Refusals: 4, also
/// for the count and for settings behind it that are not zero, then 16.
pub fn write_update(settings: [Setting; 8], count: usize, out: &mut [u8]) -> Wrote {
    let settings = Settings { all: settings };
    // SAFETY: the pointer and the length are those of a slice lent to this call alone.
    unsafe { raw::yarrowbell_write_update(settings, count, out.as_mut_ptr(), out.len()) }
}

/// Writes a Stop's frame, one byte, to the start of `out`. Refusal: 16.
pub fn write_stop(out: &mut [u8]) -> Wrote {
    // SAFETY: the pointer and the length are those of a slice lent to this call alone.
    unsafe { raw::yarrowbell_write_stop(out.as_mut_ptr(), out.len()) }
}

/// Writes a Single's frame to the start of `out`. Refusals: 4, then 16.
pub fn write_single(single: Single, out: &mut [u8]) -> Wrote {
    // SAFETY: the pointer and the length are those of a slice lent to this call alone.
    unsafe { raw::yarrowbell_write_single(single, out.as_mut_ptr(), out.len()) }
}

/// The reply byte to a command of this Ident that is given this answer. Of the Ident the low two bits
/// count; where no command is given that answer it is 0.
pub fn reply(ident: u8, answer: u8) -> u8 {
    // SAFETY: it takes and gives numbers alone.
    unsafe { raw::yarrowbell_reply(ident, answer) }
}
