//! Another time of the same box: a good record that would take long to reach.

use crate::pick::once_in;
use rand::rngs::SmallRng;
use rand::Rng;
use yarrowbell::raw::{BoxRecord, PartialFrame};

const RUNNING: u16 = 1;
const TRIPPED: u16 = 2;

/// Clock, holds and what a running list counts are other good numbers, often just before their
/// ends. A tripped box may have an Update open.
pub fn jumped(rng: &mut SmallRng, from: &BoxRecord) -> BoxRecord {
    let mut record = *from;
    record.clock = match rng.gen_range(0..8) {
        0 => u32::MAX - rng.gen_range(0..=400),
        1 | 2 => rng.gen_range(0..=1_000),
        _ => rng.gen(),
    };
    let core = &mut record.core;
    core.holda = rng.gen_range(0..=15);
    core.holdb = rng.gen_range(0..=15);
    if core.state == RUNNING {
        let last = 5 * u32::from(core.run.list.main) + 9;
        core.run.position = late(rng, last) as u16;
        core.run.cycle = late(rng, record.clock);
        core.run.watch = late(rng, record.profile.watchdog - 1);
        if once_in(rng, 4) {
            // The next tick is the last of all and begins a cycle.
            record.clock = u32::MAX - 1;
            core.run.cycle = record.clock;
            core.run.position = last as u16;
        }
    }
    if core.state == TRIPPED && rng.gen() {
        record.partial = open_update(rng);
    }
    record
}

/// A number from 0 to `last`, often one of the last.
fn late(rng: &mut SmallRng, last: u32) -> u32 {
    match rng.gen_range(0..4) {
        0 => rng.gen_range(0..=last),
        1 => last.saturating_sub(rng.gen_range(0..=40)),
        _ => last.saturating_sub(rng.gen_range(0..=1)),
    }
}

/// An Update of any length, left open by a trip.
fn open_update(rng: &mut SmallRng) -> PartialFrame {
    let kept = 1 + 3 * rng.gen_range(1..=8);
    let len = rng.gen_range(1..kept);
    let mut bytes = [0; 25];
    bytes[0] = rng.gen_range(0xA0..0xC0);
    bytes[1..len].fill_with(|| rng.gen_range(0..0x80));
    PartialFrame { bytes, kept: kept as u8, len: len as u16 }
}
