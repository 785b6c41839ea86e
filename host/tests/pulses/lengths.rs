//! Data of every length, to packets of 1,200 bytes and beyond.

use crate::agree::{self, refused};
use crate::device::LONGEST_DATA;
use crate::random_bytes::byte;
use crate::seeded::seeded;
use independent::rehamove3::{compose, Command, Reading};
use rand::Rng;
use yarrowbell::rehamove3::LONGEST_PACKET;

/// The packet of this data is read if it is not too long, and is 4 if it is. Hands back whether it was.
fn tried(packet: u8, number: u16, data: Vec<u8>) -> bool {
    let bytes = compose(packet, number, &data);
    let (used, reading) = (bytes.len(), agree::read(&bytes, LONGEST_DATA + 12));
    if used <= LONGEST_PACKET {
        let command = Some(Command::Other { number });
        assert_eq!(reading, Reading { answer: 0, used, packet, command, charge: 0, data });
        true
    } else {
        assert_eq!(reading, refused(4, used), "{used}");
        false
    }
}

/// "The maximum packet length including stuffing is 1200 Bytes." Each length to 1,210, of bytes that are
/// not stuffed, then of bytes that are, which make two.
#[test]
fn every_length() {
    let (mut read, mut longest) = (0, 0);
    for length in 0..=1_198 {
        if tried(7, 30, vec![0x33; length]) {
            (read, longest) = (read + 1, length);
        }
    }
    assert_eq!((read, longest), (LONGEST_DATA + 1, LONGEST_DATA));
    for mark in [0xF0, 0x0F, 0x81] {
        let longest = (0..=600).filter(|&length| tried(7, 30, vec![mark; length])).max();
        assert_eq!(longest, Some(LONGEST_DATA / 2));
        // One byte that is not stuffed makes an odd length: 1,199 and 1,201 bytes.
        for (marks, good) in [(593, true), (594, false)] {
            assert_eq!(tried(7, 30, [vec![mark; marks], vec![0x33]].concat()), good);
        }
    }
}

/// Much longer ones, and those that the two bytes of the length cannot tell.
#[test]
fn too_long() {
    for length in [1_300, 2_388, 4_096, 10_000, 65_523, 65_524, 65_525, 66_000, 66_712, 70_000] {
        for fill in [0x33, 0xF0] {
            assert!(!tried(7, 30, vec![fill; length]), "{length}");
        }
    }
}

/// Random bytes, to packets a little too long.
#[test]
fn mixed() {
    let (mut read, mut refused, mut nearly) = (0, 0, 0);
    seeded(0..6_000, |rng| {
        let rarely = [50, 5, 2][rng.gen_range(0..3)];
        let mut data = vec![];
        // As many bytes as make this packet, or one more.
        let length =
            if rng.gen() { rng.gen_range(12..=1_210) } else { rng.gen_range(1_196..=1_204) };
        let (packet, number) = (rng.gen_range(0..64), rng.gen_range(6..1_024));
        while compose(packet, number, &data).len() + 64 < length {
            data.extend((0..16).map(|_| byte(rng, rarely)));
        }
        while compose(packet, number, &data).len() < length {
            data.push(byte(rng, rarely));
        }
        let used = compose(packet, number, &data).len();
        *if tried(packet, number, data) { &mut read } else { &mut refused } += 1;
        nearly += u32::from((LONGEST_PACKET - 1..=LONGEST_PACKET + 1).contains(&used));
    });
    assert!(read > 3_000 && refused > 1_000 && nearly > 800, "{read} {refused} {nearly}");
}
