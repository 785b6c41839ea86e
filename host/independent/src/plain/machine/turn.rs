//! Whose turn it is at a position.
//!
//! "A channel's slot is 15·k, k being the number of listed channels of its module below it, plus 6
//! for module B (003's 0.6 ms offset). It pulses at slot + p·t2 for p from 0 to Mode." By the first
//! timing rule the slots of a module lie below t2, so that a position is one channel's at most.

use super::list::t2;
use super::Run;

/// The channel of module A, counted from 0, that is due at the run's position.
#[inline(always)]
pub(super) fn a(run: &Run) -> Option<usize> {
    due(run, 0, u32::from(run.position))
}

/// The channel of module B. Before its offset the place wraps to one behind every pulse.
#[inline(always)]
pub(super) fn b(run: &Run) -> Option<usize> {
    due(run, 4, u32::from(run.position).wrapping_sub(6))
}

/// The channel of a module, `place` being the position less the module's offset.
#[inline(always)]
fn due(run: &Run, first: usize, place: u32) -> Option<usize> {
    let t2 = t2(&run.list);
    if place >= 3 * t2 {
        return None;
    }
    let p = u8::from(place >= t2) + u8::from(place >= 2 * t2);
    let slot = place - u32::from(p) * t2;
    if !slot.is_multiple_of(15) {
        return None;
    }
    let listed = usize::from(run.list.channel_stim >> first & 15);
    let below = usize::try_from(slot / 15).ok()?;
    let channel = first + usize::from(*ORDER[listed].get(below)?);
    let setting = run.settings.get(channel)?;
    (p <= setting.mode && frequent(run, channel)).then_some(channel)
}

/// "Low frequency channels pulse only in cycles c where c + 1 is a multiple of N_Factor + 1." A low
/// frequency bit counts on listed channels alone, and only these have a turn.
#[inline(always)]
fn frequent(run: &Run, channel: usize) -> bool {
    run.list.channel_lf >> channel & 1 == 0
        || (u64::from(run.cycle) + 1).is_multiple_of(u64::from(run.list.n_factor) + 1)
}

/// The channels of each list of one module, lowest first.
const ORDER: [&[u8]; 16] = [
    &[],
    &[0],
    &[1],
    &[0, 1],
    &[2],
    &[0, 2],
    &[1, 2],
    &[0, 1, 2],
    &[3],
    &[0, 3],
    &[1, 3],
    &[0, 1, 3],
    &[2, 3],
    &[0, 2, 3],
    &[1, 2, 3],
    &[0, 1, 2, 3],
];
