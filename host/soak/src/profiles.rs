//! Random profiles.

use crate::pick::{any, once_in};
use rand::rngs::SmallRng;
use rand::Rng;
use yarrowbell::Profile;

const TIGHTEST: Profile =
    Profile { currents: [0; 8], widths: [0; 8], charge: 0, shortest: 10_235, watchdog: 1 };

/// A good one. Most let lists run for some cycles and trip them now and then.
pub fn good(rng: &mut SmallRng) -> Profile {
    match rng.gen_range(0..20) {
        0 => TIGHTEST,
        1 | 2 => Profile::LOOSEST,
        3 | 4 => Profile { watchdog: watchdog(rng), ..Profile::LOOSEST },
        5 => Profile {
            currents: std::array::from_fn(|_| rng.gen_range(0..=127)),
            widths: std::array::from_fn(|_| rng.gen_range(0..=500)),
            charge: rng.gen_range(0..=63_500),
            shortest: rng.gen_range(30..=10_235),
            watchdog: rng.gen_range(1..=600_000),
        },
        _ => Profile {
            currents: std::array::from_fn(|_| rng.gen_range(20..=127)),
            widths: std::array::from_fn(|_| rng.gen_range(100..=500)),
            charge: charge(rng),
            shortest: rng.gen_range(30..=300),
            watchdog: watchdog(rng),
        },
    }
}

/// One with a number just out of its range, or far.
pub fn not_good(rng: &mut SmallRng) -> Profile {
    let mut profile = good(rng);
    let channel = rng.gen_range(0..8);
    match rng.gen_range(0..5) {
        0 => profile.currents[channel] = any(rng, &[128, 129, 255]),
        1 => profile.widths[channel] = any(rng, &[501, 512, u16::MAX]),
        2 => profile.charge = any(rng, &[63_501, 65_536, u32::MAX]),
        3 => profile.shortest = any(rng, &[0, 29, 10_236, 65_566, u32::MAX]),
        _ => profile.watchdog = any(rng, &[0, 600_001, u32::MAX]),
    }
    profile
}

/// One that is nowhere looser: some numbers are tighter, others the same.
pub fn tighter(rng: &mut SmallRng, than: Profile) -> Profile {
    let mut profile = than;
    for channel in 0..8 {
        if once_in(rng, 4) {
            profile.currents[channel] = rng.gen_range(0..=than.currents[channel]);
        }
        if once_in(rng, 4) {
            profile.widths[channel] = rng.gen_range(0..=than.widths[channel]);
        }
    }
    if once_in(rng, 2) {
        profile.charge = rng.gen_range(than.charge / 2..=than.charge);
    }
    if once_in(rng, 2) {
        profile.shortest = rng.gen_range(than.shortest..=(than.shortest + 100).min(10_235));
    }
    if once_in(rng, 2) {
        profile.watchdog = rng.gen_range(1.max(than.watchdog / 4)..=than.watchdog);
    }
    profile
}

fn watchdog(rng: &mut SmallRng) -> u32 {
    match rng.gen_range(0..4) {
        0 => rng.gen_range(1..=100),
        1 => rng.gen_range(100..=1_000),
        _ => rng.gen_range(1_000..=5_000),
    }
}

/// Often one that a current and a width reach exactly.
fn charge(rng: &mut SmallRng) -> u32 {
    if once_in(rng, 2) {
        rng.gen_range(20..=127) * rng.gen_range(100..=500)
    } else {
        rng.gen_range(5_000..=63_500)
    }
}
