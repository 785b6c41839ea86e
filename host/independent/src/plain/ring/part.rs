//! The ring's numbers (12) and its part of the lent buffer (13).

use crate::{Part, Ring};

/// "A capacity of 16 to 4,096 bytes", a start in the part, and no more bytes used than it has.
#[inline(always)]
pub(crate) fn good(ring: &Ring) -> bool {
    (ring.capacity.wrapping_sub(16) <= 4096 - 16)
        & (ring.start < ring.capacity)
        & (ring.used <= ring.capacity)
}

/// The part, if it is inside the lent buffer and its size is the box's capacity.
#[inline(always)]
pub(crate) fn part(buffer: &[u8], at: Part, capacity: usize) -> Option<&[u8]> {
    buffer.get(at.offset..)?.get(..at.size).filter(|part| part.len() == capacity)
}

/// The part to write in, under the same test.
#[inline(always)]
pub(crate) fn part_mut(buffer: &mut [u8], at: Part, capacity: usize) -> Option<&mut [u8]> {
    buffer.get_mut(at.offset..)?.get_mut(..at.size).filter(|part| part.len() == capacity)
}
