//! Which of two profiles is looser, and by which number.

use crate::seeded::seeded;
use independent::plain::machine;
use rand::rngs::SmallRng;
use rand::Rng;
use yarrowbell::Profile;

/// As the independent machine has it, for profiles that differ in a few numbers.
#[test]
fn nowhere_looser() {
    let mut found = [0; 2];
    seeded(0..20_000, |rng| {
        let one = changed(rng, Profile::LOOSEST);
        let other = changed(rng, one);
        let expected = independently(one).nowhere_looser(&independently(other));
        assert_eq!(one.looser_than(&other).is_none(), expected, "{one:?}, {other:?}");
        found[usize::from(expected)] += 1;
    });
    assert!(found.iter().all(|times| *times > 1_000), "{found:?}");
}

#[test]
fn the_number_is_named() {
    let said = |change: fn(&mut Profile)| {
        let mut tighter = Profile::LOOSEST;
        change(&mut tighter);
        assert_eq!(tighter.looser_than(&Profile::LOOSEST), None);
        Profile::LOOSEST.looser_than(&tighter).expect("it is tighter").to_string()
    };
    assert_eq!(
        said(|it| it.currents[7] = 3),
        "the largest current of channel 8 is 127, the other's 3"
    );
    assert_eq!(said(|it| it.widths[0] = 0), "the largest width of channel 1 is 500, the other's 0");
    assert_eq!(said(|it| it.charge = 1), "the largest charge is 63500, the other's 1");
    assert_eq!(said(|it| it.shortest = 31), "the shortest t1 is 30, the other's 31");
    assert_eq!(said(|it| it.watchdog = 2), "the watchdog is 600000, the other's 2");
}

fn changed(rng: &mut SmallRng, mut profile: Profile) -> Profile {
    for _ in 0..rng.gen_range(0..=2) {
        let channel = rng.gen_range(0..8);
        match rng.gen_range(0..5) {
            0 => profile.currents[channel] = rng.gen_range(0..=127),
            1 => profile.widths[channel] = rng.gen_range(0..=500),
            2 => profile.charge = rng.gen_range(0..=63_500),
            3 => profile.shortest = rng.gen_range(30..=10_235),
            _ => profile.watchdog = rng.gen_range(1..=600_000),
        }
    }
    profile
}

fn independently(profile: Profile) -> machine::Profile {
    let Profile { currents, widths, charge, shortest, watchdog } = profile;
    machine::Profile { currents, widths, charge, shortest, watchdog }
}
