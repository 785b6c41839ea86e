//! The number of listed channels.

use crate::{agree, random};
use independent::Kind;

/// Counts that no list has; among them some that would be 1 or 8 with their high bits lost.
const WRONG: [usize; 14] = [
    0,
    9,
    10,
    25,
    255,
    256 + 1,
    256 + 8,
    65_536 + 1,
    65_536 + 8,
    (1 << 32) + 1,
    (1 << 32) + 8,
    usize::MAX / 3 + 1,
    usize::MAX - 1,
    usize::MAX,
];

/// A wrong count is told before all else.
#[test]
fn wrong_count_when_reading() {
    for count in WRONG {
        assert_eq!(agree::read(&[], count), Err(4));
        for first in 0..=255 {
            assert_eq!(agree::read(&[first], count), Err(4));
        }
        random::seeded(0..200, |rng| {
            for kind in random::KINDS {
                let frame = random::framed(&random::good(rng, kind, 8), 8);
                assert_eq!(agree::read(&frame, count), Err(4));
            }
            assert_eq!(agree::read(&random::bytes(rng, 40), count), Err(4));
        });
    }
}

#[test]
fn wrong_count_when_writing() {
    for count in WRONG {
        random::seeded(0..200, |rng| {
            for listed in 0..=8 {
                let command = random::good(rng, Kind::Update, listed);
                assert_eq!(agree::write(&command, count, agree::ROOM), Err(4));
                assert_eq!(agree::write(&command, count, 0), Err(4));
            }
        });
    }
}

/// The count changes nothing but the length of an Update.
#[test]
fn other_kinds_at_every_count() {
    random::seeded(100..20_100, |rng| {
        for kind in [Kind::Init, Kind::Stop, Kind::Single] {
            let command = random::good(rng, kind, 1);
            let frame = random::framed(&command, 1);
            for count in 1..=8 {
                let used = frame.len();
                let expected = independent::Frame { command, used };
                assert_eq!(agree::read(&frame, count), Ok(expected));
            }
        }
    });
}

/// An Update read for another list: too short, or with the check of other channels too.
#[test]
fn updates_of_another_count() {
    random::seeded(200..20_200, |rng| {
        for written in 1..=8 {
            let frame = random::framed(&random::good(rng, Kind::Update, written), written);
            for count in 1..=8 {
                let found = agree::read(&frame, count);
                assert_eq!(found == Err(1), count > written);
            }
        }
    });
}
