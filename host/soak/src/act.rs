//! What a host does next: a few bytes, or a stretch of ticks.

use crate::frames;
use crate::pick::{any, once_in};
use rand::rngs::SmallRng;
use rand::Rng;
use yarrowbell::raw::BoxRecord;

/// The longest stretch of ticks.
const LONGEST: u32 = 1_500;

/// Bytes, each with the ticks that pass before it.
pub fn bytes(rng: &mut SmallRng, unit: &BoxRecord) -> Vec<(u32, u8)> {
    let bytes = match rng.gen_range(0..12) {
        0 => (0..rng.gen_range(1..=4)).map(|_| rng.gen_range(0..0x80)).collect(),
        1 => vec![rng.gen()],
        _ => frames::frame(rng, unit),
    };
    let slow = once_in(rng, 6);
    let mut pause = || if slow { rng.gen_range(0..=12) } else { 0 };
    bytes.into_iter().map(|byte| (pause(), byte)).collect()
}

/// How many ticks pass: some, or until a hold, a cycle or the watchdog ends, or just not.
pub fn ticks(rng: &mut SmallRng, unit: &BoxRecord) -> u32 {
    let run = &unit.core.run;
    let running = run.list.main != 0;
    let t1 = 5 * u32::from(run.list.main) + 10;
    let near = rng.gen_range(0..=2);
    match rng.gen_range(0..12) {
        0..=2 => rng.gen_range(1..=20),
        3 => 13 + near,
        4 | 5 if running => (t1 - u32::from(run.position) + near).min(LONGEST),
        6 if running => (t1 * rng.gen_range(1..=4) + near).min(LONGEST),
        7 if running => (unit.profile.watchdog - run.watch + near).min(LONGEST),
        8 => rng.gen_range(1..=600),
        _ => any(rng, &[1, 2, 30, 60, 100]),
    }
}
