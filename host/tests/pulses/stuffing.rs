//! What the bytes behind the header are stuffed to.

use crate::agree::{self, refused};
use crate::device::LONGEST_DATA;
use crate::random_bytes::byte;
use crate::seeded::seeded;
use independent::rehamove3::{compose, enclose, Command, Reading};

/// Any byte behind 81, at several places: a pair that stands for F0, 0F or 81 is read.
#[test]
fn every_pair() {
    for second in 0..=255 {
        let around: [(&[u8], &[u8]); 4] =
            [(&[], &[60]), (&[4], &[]), (&[4, 60], &[]), (&[4, 60, 7], &[7, 7])];
        for (before, behind) in around {
            let bytes = enclose(&[before, &[0x81, second], behind].concat());
            let reading = agree::read(&bytes, LONGEST_DATA);
            match second {
                0xA5 | 0x5A | 0xD4 => assert_eq!(reading.answer, 0),
                0x81 if behind.is_empty() => assert_eq!(reading, refused(1, 0)),
                _ => assert_eq!(reading, refused(4, bytes.len()), "{second:02X}"),
            }
        }
    }
}

/// A pair that is never written in the place of any byte of a carried command.
#[test]
fn a_pair_for_a_byte_that_is_not_stuffed() {
    let data = [0x82, 0x0F, 0xA5, 0x50, 0, 0x06, 0x44, 0xB0, 0, 0x0F, 0xA4, 0x10, 0];
    let content = compose(1, 2, &data)[9..].to_vec();
    let content = &content[..content.len() - 1];
    assert_eq!(agree::read(&enclose(content), LONGEST_DATA).answer, 0);
    let mut tried = 0;
    for place in 0..content.len() {
        let stuffed = content[place] == 0x81 || place > 0 && content[place - 1] == 0x81;
        if stuffed {
            continue;
        }
        let pair = [0x81, content[place] ^ 0x55];
        let bytes = enclose(&[&content[..place], &pair, &content[place + 1..]].concat());
        assert_eq!(agree::read(&bytes, LONGEST_DATA), refused(4, bytes.len()), "{place}");
        tried += 1;
    }
    assert_eq!(tried, 13);
}

/// F0 and 0F straight after 81 are no start and no stop, and no pair: 4, with the right checksum.
#[test]
fn a_start_or_a_stop_behind_81() {
    for mark in [0xF0, 0x0F] {
        for content in [vec![4, 60, 0x81, mark, 7], vec![0x81, mark, 4], vec![4, 60, 0x81, mark]] {
            let bytes = enclose(&content);
            assert_eq!(agree::read(&bytes, LONGEST_DATA), refused(4, bytes.len()));
        }
    }
}

/// Every byte at several places of long data.
#[test]
fn every_byte_at_several_places() {
    seeded(0..4, |rng| {
        let mut data: Vec<u8> = (0..500).map(|_| byte(rng, 10)).collect();
        for place in [0, 1, 2, 7, 15, 16, 31, 255, 256, 498, 499] {
            let was = data[place];
            for byte in 0..=255 {
                data[place] = byte;
                let bytes = compose(byte % 64, 999, &data);
                let (used, packet) = (bytes.len(), byte % 64);
                let command = Some(Command::Other { number: 999 });
                let data = data.clone();
                let expected = Reading { answer: 0, used, packet, command, charge: 0, data };
                assert_eq!(agree::read(&bytes, LONGEST_DATA), expected);
            }
            data[place] = was;
        }
    });
}
