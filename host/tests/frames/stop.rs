use crate::{agree, random};
use independent::{Command, Frame};

const READ: Frame = Frame { command: Command::Stop, used: 1 };

#[test]
fn every_check() {
    assert_eq!(agree::write(&Command::Stop, 1, agree::ROOM), Ok(vec![0xC0]));
    assert_eq!(agree::read(&[0xC0], 1), Ok(READ));
    for check in 1..32 {
        assert_eq!(agree::read(&[0xC0 + check], 1), Err(3));
    }
}

#[test]
fn every_first_byte_alone() {
    for first in 0..=255 {
        let expected = match first {
            0..=0x7F => Err(2),
            0xC0 => Ok(READ),
            0xC1..=0xDF => Err(3),
            _ => Err(1),
        };
        assert_eq!(agree::read(&[first], 1), expected);
    }
}

#[test]
fn a_million_stops_before_other_bytes() {
    random::seeded(3_000_000..4_000_000, |rng| {
        let mut bytes = vec![0xC0];
        bytes.extend(random::bytes(rng, 12));
        assert_eq!(agree::read(&bytes, 3), Ok(READ));
    });
}
