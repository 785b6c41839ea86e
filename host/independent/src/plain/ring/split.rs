//! Whether the used bytes split into whole known records (else 14).

use crate::Ring;

/// The used bytes lie in two runs, up to the part's end and from its front. A record that goes round
/// the end is met in the first, and leaves the second behind its front.
#[inline(always)]
pub(crate) fn splits(part: &[u8], ring: &Ring) -> bool {
    let from = &part[ring.start..];
    if ring.used <= from.len() {
        hops(&from[..ring.used], 0) == Some(0)
    } else {
        let round = &part[..ring.used - from.len()];
        hops(from, 0).and_then(|over| hops(round, over)) == Some(0)
    }
}

/// Hops from record to record until the run is passed, and tells by how many bytes. `None` where a
/// kind is unknown.
///
/// A loop for each kind: the hop is then a branch that can be foretold, and the next kind is not
/// waited for.
#[inline(always)]
pub(crate) fn hops(run: &[u8], first: usize) -> Option<usize> {
    let mut next = first;
    loop {
        let met = next;
        while run.get(next) == Some(&2) {
            next += 9;
        }
        while run.get(next) == Some(&1) {
            next += 7;
        }
        while run.get(next) == Some(&3) {
            next += 6;
        }
        if next >= run.len() {
            return Some(next - run.len());
        }
        if next == met {
            return None;
        }
    }
}
