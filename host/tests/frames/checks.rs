use crate::{agree, random};
use independent::{Frame, Kind};
use rand::Rng;

/// Of all the values that Check can have, one is right.
#[test]
fn every_check_of_a_sample() {
    for (kind, checks) in [(Kind::Init, 8), (Kind::Update, 32), (Kind::Single, 32)] {
        random::seeded(0..10_000, |rng| {
            let count = rng.gen_range(1..=8);
            let command = random::good(rng, kind, count);
            for check in 0..checks {
                let frame = independent::compose(&command, count, check);
                let right = check == independent::check(&command);
                let read = Frame { command, used: frame.len() };
                assert_eq!(agree::read(&frame, count), if right { Ok(read) } else { Err(3) });
            }
        });
    }
}
