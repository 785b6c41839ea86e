//! Random sessions: what is sent to a box, and when.

use crate::pick::once_in;
use crate::{act, numbers, profiles};
use independent::plain::machine;
use rand::rngs::SmallRng;
use rand::Rng;
use yarrowbell::{Guard, Profile};

/// Bytes by the clocks at which they are sent, which do not fall, and the clock at the end; the
/// profile and the capacity of the box for which they were chosen.
pub struct Session {
    pub profile: Profile,
    pub capacity: usize,
    pub sent: Vec<(u32, u8)>,
    pub end: u32,
}

/// The library's box is played along, but for choosing what it would mostly take.
pub fn session(rng: &mut SmallRng) -> Session {
    let profile = profiles::good(rng);
    let capacity = rng.gen_range(16..=200);
    let mut guard = Guard::new(profile, capacity).expect("profile and capacity are good");
    let mut sent = Vec::new();
    let end = rng.gen_range(0..6_000);
    while guard.clock() < end {
        if rng.gen_range(0..5) < 3 {
            for (pause, byte) in act::bytes(rng, guard.record()) {
                ticks(&mut guard, pause);
                sent.push((guard.clock(), byte));
                guard.byte(byte);
            }
        } else {
            let pause = act::ticks(rng, guard.record());
            ticks(&mut guard, pause);
        }
    }
    Session { profile, capacity, sent, end: guard.clock() }
}

/// A session of which some bits were turned on the way.
pub fn damaged(rng: &mut SmallRng) -> Session {
    let mut session = session(rng);
    for (_, byte) in &mut session.sent {
        if once_in(rng, 60) {
            *byte ^= 1 << rng.gen_range(0..8);
        }
    }
    session
}

fn ticks(guard: &mut Guard, ticks: u32) {
    for _ in 0..ticks {
        guard.tick().expect("the clock is far from its end");
    }
}

/// A profile that is nowhere looser.
pub fn tighter(rng: &mut SmallRng, than: Profile) -> Profile {
    profiles::tighter(rng, than)
}

/// The profile for the independent machine.
pub fn profile(profile: Profile) -> machine::Profile {
    numbers::profile(profile)
}
