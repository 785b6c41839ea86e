//! Outputs of every length. `agree` compares all bytes in and around them.

use crate::agree::{self, refused, ROOM};
use crate::device::{number, LONGEST_DATA, LONGEST_WRITTEN};
use crate::random_bytes::byte;
use crate::random_pulses::command;
use crate::seeded::seeded;
use independent::rehamove3::{compose, write};
use rand::Rng;

/// Data into every room: nothing is changed past the data, and nothing at all where it does not fit.
#[test]
fn every_room_for_data() {
    for length in [0, 1, 2, 13, 64, 65, 66, 500, LONGEST_DATA - 1, LONGEST_DATA] {
        // Neither F0 nor 0F nor 81 is among them, which would make two.
        let data: Vec<u8> = (0..length).map(|place| (place * 7) as u8 & 0x7E).collect();
        let bytes = compose(7, 30, &data);
        for room in 0..=ROOM {
            let reading = agree::read(&bytes, room);
            if room < length {
                assert_eq!(reading, refused(16, 0));
            } else {
                assert_eq!((reading.answer, &reading.data), (0, &data));
            }
        }
    }
}

/// The data of a command that is carried is put out too.
#[test]
fn every_room_for_the_data_of_a_command() {
    let (mut fitted, mut short) = (0, 0);
    seeded(0..400, |rng| {
        let command = command(rng);
        let data = command.data();
        let bytes = compose(rng.gen_range(0..64), command.number(), &data);
        let enough = agree::read(&bytes, LONGEST_DATA);
        for room in 0..=70 {
            let reading = agree::read(&bytes, room);
            if enough.answer == 0 && room < data.len() {
                assert_eq!(reading, refused(16, 0));
                short += 1;
            } else {
                assert_eq!(reading, enough);
                fitted += 1;
            }
        }
    });
    assert!(fitted > 10_000 && short > 3_000, "{fitted} {short}");
}

/// 1, 3 and 4 are told before 16.
#[test]
fn every_room_for_what_is_not_read() {
    let right = compose(7, 30, &[0x33; 100]);
    let mut wrong = right.clone();
    wrong[20] ^= 1;
    let long = compose(7, 30, &[0x33; LONGEST_DATA + 1]);
    for room in 0..=ROOM {
        assert_eq!(agree::read(&right[..111], room), refused(1, 0));
        assert_eq!(agree::read(&wrong, room), refused(3, 112));
        assert_eq!(agree::read(&long, room), refused(4, 1_201));
    }
}

#[test]
fn every_room_for_a_packet() {
    let (mut written, mut not_good) = (0, 0);
    seeded(1_000..3_000, |rng| {
        let (packet, command) = (number(rng), command(rng));
        let whole = write(packet, command);
        *if whole.is_some() { &mut written } else { &mut not_good } += 1;
        for room in 0..=LONGEST_WRITTEN + 10 {
            let expected = match &whole {
                None => Err(4),
                Some(bytes) if bytes.len() > room => Err(16),
                Some(bytes) => Ok(bytes.clone()),
            };
            assert_eq!(agree::write(packet, command, room), expected);
        }
    });
    assert!(written > 800 && not_good > 400, "{written} {not_good}");
}

/// Random data into random rooms, about as long.
#[test]
fn rooms_about_as_long() {
    let (mut exactly, mut short) = (0, 0);
    seeded(5_000..25_000, |rng| {
        let length: usize = rng.gen_range(0..=200);
        let data: Vec<u8> = (0..length).map(|_| byte(rng, 5)).collect();
        let bytes = compose(rng.gen_range(0..64), rng.gen_range(6..1_024), &data);
        let room = rng.gen_range(length.saturating_sub(2)..=length + 2);
        let reading = agree::read(&bytes, room);
        assert_eq!(reading.answer, if room < length { 16 } else { 0 });
        exactly += u32::from(room == length);
        short += u32::from(room < length);
    });
    assert!(exactly > 2_000 && short > 4_000, "{exactly} {short}");
}
