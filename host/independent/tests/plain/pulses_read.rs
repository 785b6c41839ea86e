//! The fast reader of the RehaMove3's packets against the slow one.

use crate::counted::counted;
use crate::random_bytes::{bytes, damaged};
use crate::random_pulses::packet;
use crate::seeded::seeded;
use independent::plain::rehamove3::{self as fast, Read};
use independent::rehamove3::{self as slow, compose, enclose, Reading};
use rand::rngs::SmallRng;
use rand::Rng;

/// The most data that a packet can have.
const MOST: usize = 1_188;

/// Reads with both into an output of `room` bytes, and hands back the answer.
fn agree(bytes: &[u8], room: usize) -> u8 {
    let Reading { answer, used, packet, command, charge, data } = slow::read(bytes, room);
    let size = data.len() as u16;
    let mut out = [0x3C; MOST + 4];
    let mut expected = out;
    expected[..data.len()].copy_from_slice(&data);
    let read = fast::read(bytes, &mut out[..room]);
    assert_eq!(read, Read { used, charge, answer, packet, size, command }, "{bytes:02X?} {room}");
    assert_eq!(out, expected, "{bytes:02X?} {room}");
    answer
}

/// Any room for data, most often enough.
fn room(rng: &mut SmallRng) -> usize {
    match rng.gen_range(0..8) {
        0 => rng.gen_range(0..=MOST),
        1 => rng.gen_range(0..=65),
        _ => MOST,
    }
}

#[test]
fn packets() {
    let answers = counted(0..200_000, |rng| agree(&packet(rng), room(rng)));
    assert!(answers[0] > 80_000 && answers[4] > 20_000 && answers[16] > 2_000, "{answers:?}");
}

#[test]
fn damaged_packets() {
    let answers = counted(1_000_000..1_200_000, |rng| {
        let packet = packet(rng);
        agree(&damaged(rng, packet), room(rng))
    });
    let [read, unfinished, _, checksum, not_good, ..] = answers;
    assert!(
        [read, unfinished, checksum, not_good].iter().all(|&times| times > 2_000),
        "{answers:?}"
    );
}

#[test]
fn short_packets() {
    seeded(2_000_000..2_005_000, |rng| {
        let packet = packet(rng);
        for length in 0..packet.len().min(100) {
            assert_eq!(agree(&packet[..length], MOST), 1);
            agree(&packet[length..], MOST);
        }
    });
}

/// Garbage, packets and damaged ones, one behind the other.
#[test]
fn streams() {
    let answers = counted(3_000_000..3_100_000, |rng| {
        let mut stream = bytes(rng, 20);
        for _ in 0..rng.gen_range(0..3) {
            let packet = packet(rng);
            stream.extend(if rng.gen() { packet } else { damaged(rng, packet) });
            stream.extend(bytes(rng, 10));
        }
        agree(&stream, room(rng))
    });
    assert!([0, 1, 3, 4].iter().all(|&answer| answers[answer] > 2_000), "{answers:?}");
}

/// A packet with its right checksum and its right length around any bytes.
#[test]
fn any_bytes_enclosed() {
    let answers = counted(5_000_000..5_200_000, |rng| {
        let longest = [4, 20, 70, 300, 1_300][rng.gen_range(0..5)];
        agree(&enclose(&bytes(rng, longest)), room(rng))
    });
    assert!([0, 1, 3, 4].iter().all(|&answer| answers[answer] > 2_000), "{answers:?}");
}

/// Any header, around any bytes.
#[test]
fn headers() {
    let answers = counted(5_500_000..5_800_000, |rng| {
        let mut packet = enclose(&bytes(rng, 6));
        packet[rng.gen_range(1..9)] = rng.gen();
        agree(&packet, room(rng))
    });
    assert!([1, 3, 4].iter().all(|&answer| answers[answer] > 2_000), "{answers:?}");
}

/// A start or a stop that is none, for the checksum before it ends in a stuffing byte.
#[test]
fn bare_marks() {
    let mut tried = 0;
    for data in 0..=u16::MAX {
        let [second, data] = data.to_be_bytes();
        for bare in [0xF0, 0x0F] {
            let packet = enclose(&[bare, second, data]);
            if packet[8] == 0x81 {
                tried += u32::from(agree(&packet, MOST) == 4);
            }
        }
    }
    assert!(tried > 400, "{tried}");
}

/// Every length, plain and stuffed, around those where a room is too small and where a packet is too
/// long.
#[test]
fn every_length() {
    seeded(6_000_000..6_000_004, |rng| {
        for length in 0..=1_300 {
            let data: Vec<u8> = (0..length).map(|_| rng.gen()).collect();
            for data in [data, vec![0x33; length], vec![0xF0; length]] {
                let packet = compose(1, 60, &data);
                let answer = agree(&packet, MOST);
                assert_eq!(answer, if packet.len() <= 1_200 { 0 } else { 4 });
            }
        }
    });
}

/// Every byte of a packet replaced by every other.
#[test]
fn every_byte_replaced() {
    seeded(7_000_000..7_000_150, |rng| {
        let mut packet = packet(rng);
        for place in 0..packet.len().min(80) {
            let was = packet[place];
            for byte in 0..=255 {
                packet[place] = byte;
                agree(&packet, MOST);
            }
            packet[place] = was;
        }
    });
}
