//! From a readout to its sheet: 14, 4, 16. The first pass tests and counts, the second writes.

mod clock;
mod line;
mod size;

use super::{HEADER, LINE};
use crate::plain::answer::OUTPUT_TOO_SHORT;
use line::Lines;

/// Writes the sheet of a readout to the start of `out`. Hands back how many bytes it has.
#[inline(never)]
pub fn write(readout: &[u8], out: &mut [u8]) -> Result<usize, u8> {
    let size = HEADER.len() + size::lines(readout)?;
    let (header, out) =
        out.get_mut(..size).and_then(|out| out.split_first_chunk_mut()).ok_or(OUTPUT_TOO_SHORT)?;
    *header = *HEADER;
    let mut lines = Lines::of(readout);
    let written = lines.put(out);
    // A line is written with room behind it: what is left of the output is too short for that.
    let last = &mut out[written..];
    let mut room = [0; 2 * LINE];
    lines.put(&mut room);
    last.copy_from_slice(&room[..last.len()]);
    Ok(size)
}
