//! "Reading it out copies that tail, oldest first."

use super::ready::whole;
use crate::plain::answer::OUTPUT_TOO_SHORT;
use crate::{Part, Ring};

/// 12, 13, 14, then 16. Hands back how many bytes it copied.
#[inline(never)]
pub fn read_out(buffer: &[u8], at: Part, ring: &Ring, out: &mut [u8]) -> Result<usize, u8> {
    let part = whole(buffer, at, ring)?;
    let out = out.get_mut(..ring.used).ok_or(OUTPUT_TOO_SHORT)?;
    let (round, from) = part.split_at(ring.start);
    let (before_end, behind_end) = out.split_at_mut(ring.used.min(from.len()));
    before_end.copy_from_slice(&from[..before_end.len()]);
    behind_end.copy_from_slice(&round[..behind_end.len()]);
    Ok(ring.used)
}
