use crate::{agree, random};
use independent::{Command, Frame, Init, Kind};
use rand::rngs::SmallRng;
use rand::Rng;

/// Writes and reads one Init, with a right and a wrong check and don't-care bits set.
fn tried(rng: &mut SmallRng, init: Init) {
    let command = Command::Init(init);
    let frame = random::framed(&command, 1);
    let good = init.channel_stim != 0
        && matches!(init.group_time, 3..=29)
        && matches!(init.main_time, 4..=2045);
    let expected = if good { Ok(frame.clone()) } else { Err(4) };
    assert_eq!(agree::write(&command, 1, agree::ROOM), expected);
    let expected = if good { Ok(Frame { command, used: 6 }) } else { Err(4) };
    assert_eq!(agree::read(&frame, 1), expected);
    assert_eq!(agree::read(&random::stirred(rng, Kind::Init, 1, &frame), 1), expected);
    let wrong = (independent::check(&command) + rng.gen_range(1..8)) % 8;
    assert_eq!(agree::read(&independent::compose(&command, 1, wrong), 1), Err(3));
}

#[test]
fn every_pair_of_times() {
    random::seeded(0..4, |rng| {
        for group_time in 0..32 {
            for main_time in 0..2048 {
                let init = random::any_init(rng);
                tried(rng, Init { group_time, main_time, ..init });
            }
        }
    });
}

#[test]
fn random_inits() {
    random::seeded(1_000..1_001_000, |rng| {
        let init = if rng.gen() { random::good_init(rng) } else { random::any_init(rng) };
        tried(rng, init);
    });
}

#[test]
fn every_pair_of_channel_sets() {
    random::seeded(0..1, |rng| {
        for channel_stim in 0..=255 {
            for channel_lf in 0..=255 {
                let init = random::good_init(rng);
                tried(rng, Init { channel_stim, channel_lf, ..init });
            }
        }
    });
}
