//! Data of every length and of every byte.

use crate::agree::{self, refused};
use crate::random_bytes::byte;
use crate::random_packets::command;
use crate::seeded::seeded;
use independent::rehastim2::{checksum, compose, Command, Reading};
use rand::Rng;

/// The reading of another command's packet.
fn other(number: u8, packet: u8, used: usize, data: Vec<u8>) -> Reading {
    Reading { answer: 0, used, packet, command: Some(Command::Other { number }), data }
}

/// "Command data < 61 Byte", before stuffing; the length can tell 255 stuffed bytes.
#[test]
fn every_length() {
    let longer = [255, 256, 257, 300, 511, 512, 1_000, 10_000];
    for length in (0..=130).chain(longer) {
        seeded(0..10, |rng| {
            for fill in [0x33, 0xF0, 0x0F, 0x81, 0xA5] {
                let data = vec![fill; length];
                let mixed: Vec<u8> = (0..length).map(|_| byte(rng, 4)).collect();
                for data in [data, mixed] {
                    let packet = rng.gen();
                    let bytes = compose(packet, 60, &data);
                    let used = bytes.len();
                    let expected = match length {
                        0..=60 => other(60, packet, used, data),
                        _ => refused(4, used),
                    };
                    assert_eq!(agree::read(&bytes, 60), expected);
                }
            }
        });
    }
}

#[test]
fn every_byte_at_several_places() {
    seeded(1_000..1_020, |rng| {
        let mut data: Vec<u8> = (0..60).map(|_| byte(rng, 10)).collect();
        for place in [0, 1, 2, 7, 8, 31, 58, 59] {
            let was = data[place];
            for byte in 0..=255 {
                data[place] = byte;
                let bytes = compose(byte, 60, &data);
                let expected = other(60, byte, bytes.len(), data.clone());
                assert_eq!(agree::read(&bytes, 60), expected);
            }
            data[place] = was;
        }
    });
}

/// Every packet number before every command number.
#[test]
fn every_packet_number() {
    for packet in 0..=255 {
        for number in 0..=255 {
            let bytes = compose(packet, number, &[]);
            let reading = agree::read(&bytes, 0);
            let carried_with_data = matches!(number, 1 | 2 | 3 | 11 | 30 | 31);
            assert_eq!(reading.answer, if carried_with_data { 4 } else { 0 });
            assert_eq!(reading.used, bytes.len());
        }
    }
}

/// Any bytes behind a header that is right: the pairs of 81 decide, and how many bytes there are.
#[test]
fn every_pair() {
    for second in 0..=255 {
        for around in 0..4 {
            let (before, behind) =
                [(&[][..], &[60][..]), (&[1], &[]), (&[1, 60], &[]), (&[1, 60, 7], &[7, 7])]
                    [around];
            let covered = [before, &[0x81, second], behind].concat();
            let length = covered.len() as u8;
            let header = [0xF0, 0x81, checksum(&covered) ^ 0x55, 0x81, length ^ 0x55];
            let bytes = [&header, &covered[..], &[0x0F]].concat();
            let reading = agree::read(&bytes, 60);
            match second {
                0xA5 | 0x5A | 0xD4 => assert_eq!(reading.answer, 0),
                0x81 if behind.is_empty() => assert_eq!(reading, refused(1, 0)),
                _ => assert_eq!(reading, refused(4, bytes.len())),
            }
        }
    }
}

/// Every length that a packet could tell: one is right.
#[test]
fn every_length_told() {
    seeded(2_000..2_030, |rng| {
        let command = command(rng);
        let mut bytes = compose(rng.gen(), command.number(), &command.data());
        let right = bytes[4];
        let answer = agree::read(&bytes, 60).answer;
        for told in 0..=255 {
            bytes[4] = told;
            let reading = agree::read(&bytes, 60);
            let expected = if told == right { answer } else { 4 };
            assert_eq!((reading.answer, reading.used), (expected, bytes.len()));
        }
        bytes[4] = right;
        for stuffing in (0..=255).filter(|byte| ![0xF0, 0x0F, 0x81].contains(byte)) {
            bytes[3] = stuffing;
            assert_eq!(agree::read(&bytes, 60), refused(4, bytes.len()));
        }
    });
}
