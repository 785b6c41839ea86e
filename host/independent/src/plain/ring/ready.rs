//! Whether the ring is there as its numbers say.

use super::{good, part, splits};
use crate::plain::answer::{BOX_RECORD, PART, SPLIT};
use crate::{Part, Ring};

/// 12, 13, 14 in this order.
#[inline(never)]
pub fn ready(buffer: &[u8], at: Part, ring: &Ring) -> Result<(), u8> {
    whole(buffer, at, ring).map(|_| ())
}

/// The part of a ring that is ready.
#[inline(always)]
pub(super) fn whole<'a>(buffer: &'a [u8], at: Part, ring: &Ring) -> Result<&'a [u8], u8> {
    if !good(ring) {
        return Err(BOX_RECORD);
    }
    let part = part(buffer, at, ring.capacity).ok_or(PART)?;
    if splits(part, ring) {
        Ok(part)
    } else {
        Err(SPLIT)
    }
}
