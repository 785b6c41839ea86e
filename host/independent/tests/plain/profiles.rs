//! Profiles: the edges of every range, and which is looser.

use crate::random::{self, seeded};
use independent::plain::machine::{BoxRecord, Profile};

const LOOSEST: Profile = Profile {
    currents: [127; 8],
    widths: [500; 8],
    charge: 63_500,
    shortest: 30,
    watchdog: 600_000,
};

const STRICTEST: Profile =
    Profile { currents: [0; 8], widths: [0; 8], charge: 0, shortest: 10_235, watchdog: 1 };

#[test]
fn edges() {
    assert!(LOOSEST.good() && STRICTEST.good());
    for channel in 0..8 {
        let mut over = LOOSEST;
        over.currents[channel] = 128;
        assert_eq!(BoxRecord::new(over, 16), Err(11));
        let mut over = LOOSEST;
        over.widths[channel] = 501;
        assert_eq!(BoxRecord::new(over, 16), Err(11));
    }
    for over in [
        Profile { charge: 63_501, ..LOOSEST },
        Profile { shortest: 29, ..LOOSEST },
        Profile { shortest: 10_236, ..LOOSEST },
        Profile { watchdog: 0, ..LOOSEST },
        Profile { watchdog: 600_001, ..LOOSEST },
    ] {
        assert_eq!(BoxRecord::new(over, 15), Err(11));
    }
}

#[test]
fn looser() {
    assert!(STRICTEST.nowhere_looser(&LOOSEST) && !LOOSEST.nowhere_looser(&STRICTEST));
    seeded(0..10_000, |rng| {
        let than = random::profile(rng);
        let mut profile = random::nowhere_looser(rng, &than);
        assert!(profile.nowhere_looser(&than) && than.nowhere_looser(&than));
        assert_eq!(than.nowhere_looser(&profile), than == profile);
        profile.widths[7] = than.widths[7] + 1;
        assert!(!profile.nowhere_looser(&than));
        let profile = Profile { shortest: than.shortest - 1, ..than };
        assert!(!profile.nowhere_looser(&than));
    });
}

/// "A refusal gives an all-zero record, which is not good."
#[test]
fn all_zero() {
    assert!(!BoxRecord::default().good());
}
