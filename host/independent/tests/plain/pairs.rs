//! Two boxes on the same calls, the second's profile nowhere looser: every pulse of the second the
//! first releases in the same call, and until the second first trips they say the same.

use crate::played::Played;
use crate::random::{self, seeded};
use crate::script::{calls, Call};
use independent::plain::machine::{Pulse, Said};
use rand::Rng;

fn within(strict: &Pulse, lax: &Pulse) -> bool {
    *strict == Pulse::default() || strict == lax
}

#[test]
fn nowhere_looser() {
    let (mut both, mut less, mut trips) = (0, 0, 0);
    seeded(0..1_500, |rng| {
        let profile = random::profile(rng);
        let second = random::nowhere_looser(rng, &profile);
        assert!(second.good() && second.nowhere_looser(&profile));
        let mut lax = Played::new(profile, 64);
        let mut strict = Played::new(second, 32);
        let mut tripped = false;
        for _ in 0..60 {
            let played = if rng.gen() { &lax } else { &strict };
            for call in calls(rng, &played.record) {
                let (first, second): (Said, Said) = match call {
                    Call::Byte(byte) => (lax.byte(byte), strict.byte(byte)),
                    Call::Tick => (lax.tick(), strict.tick()),
                };
                assert!(within(&second.a, &first.a) && within(&second.b, &first.b));
                let now = strict.record.state == 2;
                trips += u32::from(now && !tripped);
                tripped |= now;
                if !tripped {
                    assert_eq!(first, second);
                }
                both += u32::from(second.a.channel > 0);
                less += u32::from(second.a != first.a);
            }
        }
    });
    println!("{both} pulses of both, {less} of the first alone, {trips} second boxes tripped");
    assert!(both > 1_000 && less > 1_000 && trips > 500, "{both} {less} {trips}");
}
