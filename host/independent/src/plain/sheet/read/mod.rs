//! From a sheet to its records: 4 with the number of the first bad line, 16.
//!
//! Nothing is written before the last line is read, so the first records are held until then. Only
//! those that a full ring has no room for are read twice.

mod clock;
mod line;
mod lines;

use super::{HEADER, LINE};
use crate::sheet::NotRead;
use lines::Lines;

/// The bytes of a full ring, the last record with room for any, and of a few records. These need little,
/// which is cleared sooner.
const FULL: usize = 4096 + 8;
const FEW: usize = 256;

/// Reads a sheet, and puts its records to the start of `out` as a readout has them. Hands back how many
/// bytes they have.
#[inline(never)]
pub fn read(sheet: &[u8], out: &mut [u8]) -> Result<usize, NotRead> {
    let lines = sheet.strip_prefix(HEADER).ok_or(NotRead::BadLine(1))?;
    let mut end = [0; 2 * LINE];
    end[..LINE].copy_from_slice(&sheet[sheet.len() - LINE..]);
    // A record has little more than half as many bytes as its line.
    if lines.len() <= FEW {
        by_holding::<FEW>(Lines::of(lines, &end), out)
    } else {
        by_holding::<FULL>(Lines::of(lines, &end), out)
    }
}

#[inline(always)]
fn by_holding<const MOST: usize>(mut lines: Lines, out: &mut [u8]) -> Result<usize, NotRead> {
    let mut held = [0; MOST];
    let first = lines.put(&mut held)?;
    let later = if lines.is_empty() { 0 } else { size(lines.clone())? };
    let out = out.get_mut(..first + later).ok_or(NotRead::OutputTooShort)?;
    let (front, behind) = out.split_at_mut(first);
    front.copy_from_slice(&held[..first]);
    if later > 0 {
        let put = lines.put(behind)?;
        let last = &mut behind[put..];
        lines.put(&mut held)?;
        last.copy_from_slice(&held[..last.len()]);
    }
    Ok(first + later)
}

/// How many bytes all records of these lines have.
fn size(mut lines: Lines) -> Result<usize, NotRead> {
    let mut room = [0; FEW];
    let mut all = 0;
    while !lines.is_empty() {
        all += lines.put(&mut room)?;
    }
    Ok(all)
}
