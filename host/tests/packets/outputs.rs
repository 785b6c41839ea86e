//! Outputs of every length. `agree` compares all bytes in and around them.

use crate::agree::{self, refused, ROOM};
use crate::random_bytes::byte;
use crate::random_packets::command;
use crate::seeded::seeded;
use independent::rehastim2::{compose, write};
use rand::Rng;

/// Data of every length into every room: nothing is changed past the data, and nothing at all where it
/// does not fit.
#[test]
fn every_room_for_data() {
    for length in 0..=60 {
        seeded(0..2, |rng| {
            let data: Vec<u8> = (0..length).map(|_| byte(rng, 5)).collect();
            let bytes = compose(rng.gen(), 60, &data);
            for room in 0..=ROOM {
                let reading = agree::read(&bytes, room);
                if room < length {
                    assert_eq!(reading, refused(16, 0));
                } else {
                    assert_eq!((reading.answer, &reading.data), (0, &data));
                }
            }
        });
    }
}

/// The data of a command that is carried is put out too.
#[test]
fn every_room_for_the_data_of_a_command() {
    seeded(1_000..1_300, |rng| {
        let command = command(rng);
        let data = command.data();
        let bytes = compose(rng.gen(), command.number(), &data);
        let enough = agree::read(&bytes, 60);
        for room in 0..=10 {
            let reading = agree::read(&bytes, room);
            if enough.answer == 0 && room < data.len() {
                assert_eq!(reading, refused(16, 0));
            } else {
                assert_eq!(reading, enough);
            }
        }
    });
}

/// 1, 3 and 4 are told before 16.
#[test]
fn every_room_for_what_is_not_read() {
    let right = compose(7, 60, &[0x33; 60]);
    let mut wrong = right.clone();
    wrong[20] ^= 1;
    let long = compose(7, 60, &[0x33; 61]);
    for room in 0..=ROOM {
        assert_eq!(agree::read(&right[..66], room), refused(1, 0));
        assert_eq!(agree::read(&wrong, room), refused(3, 68));
        assert_eq!(agree::read(&long, room), refused(4, 69));
    }
}

#[test]
fn every_room_for_a_packet() {
    seeded(2_000..4_000, |rng| {
        let (packet, command) = (byte(rng, 3), command(rng));
        let whole = write(packet, command);
        for room in 0..=30 {
            let expected = match &whole {
                None => Err(4),
                Some(bytes) if bytes.len() > room => Err(16),
                Some(bytes) => Ok(bytes.clone()),
            };
            assert_eq!(agree::write(packet, command, room), expected);
        }
    });
}
