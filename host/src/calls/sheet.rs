//! The calls for the trace as a text sheet.

use crate::raw::sheet::{self, Read, Written};

/// Writes the sheet of a readout to the start of `out`. Refusals: 14, 4, then 16.
pub fn write(readout: &[u8], out: &mut [u8]) -> Written {
    let (pointer, length) = (readout.as_ptr(), readout.len());
    // SAFETY: each pointer and length are those of a slice, `out` lent to this call alone.
    unsafe { sheet::yarrowbell_sheet_write(pointer, length, out.as_mut_ptr(), out.len()) }
}

/// Puts the bytes of a sheet's records to the start of `out`, as a readout has them. Refusals: 4
/// with the number of the first bad line, then 16.
pub fn read(sheet: &[u8], out: &mut [u8]) -> Read {
    let (pointer, length) = (sheet.as_ptr(), sheet.len());
    // SAFETY: each pointer and length are those of a slice, `out` lent to this call alone.
    unsafe { sheet::yarrowbell_sheet_read(pointer, length, out.as_mut_ptr(), out.len()) }
}
