//! Millions of packets, whole and damaged, and of bytes that are none.

use crate::agree;
use crate::device::{command, number, packet, Device, LONGEST_DATA, LONGEST_WRITTEN};
use crate::random_bytes::{bytes, damaged};
use crate::seeded::seeded;
use rand::rngs::SmallRng;
use rand::Rng;
use soak::packets::covered;

/// How often each answer was given.
fn counted(seeds: std::ops::Range<u64>, mut case: impl FnMut(&mut SmallRng) -> u8) -> [u32; 17] {
    let mut answers = [0; 17];
    seeded(seeds, |rng| answers[usize::from(case(rng))] += 1);
    answers
}

/// Any room for data, most often enough.
fn room(rng: &mut SmallRng) -> usize {
    if rng.gen_ratio(1, 4) {
        rng.gen_range(0..=LONGEST_DATA)
    } else {
        LONGEST_DATA
    }
}

#[test]
fn a_million_packets() {
    let answers = counted(0..1_000_000, |rng| agree::read(&packet(rng), room(rng)).answer);
    let [read, .., short] = answers;
    assert!(read > 500_000 && answers[4] > 50_000 && short > 5_000, "{answers:?}");
}

#[test]
fn damaged_packets() {
    let answers = counted(1_000_000..1_300_000, |rng| {
        let packet = packet(rng);
        agree::read(&damaged(rng, packet), room(rng)).answer
    });
    assert!([0, 1, 3, 4].iter().all(|&answer| answers[answer] > 5_000), "{answers:?}");
}

/// Garbage, packets and damaged ones, one behind the other.
#[test]
fn streams() {
    let answers = counted(2_000_000..2_200_000, |rng| {
        let mut stream = bytes(rng, 20);
        for _ in 0..rng.gen_range(0..3) {
            let packet = packet(rng);
            stream.extend(if rng.gen() { packet } else { damaged(rng, packet) });
            stream.extend(bytes(rng, 10));
        }
        agree::read(&stream, room(rng)).answer
    });
    assert!([0, 1, 3, 4].iter().all(|&answer| answers[answer] > 10_000), "{answers:?}");
}

/// Any bytes behind a header with their right checksum and their right length.
#[test]
fn any_bytes_covered() {
    let answers =
        counted(3_000_000..3_200_000, |rng| agree::read(&covered::<Device>(rng), room(rng)).answer);
    assert!([0, 1, 3, 4].iter().all(|&answer| answers[answer] > 2_000), "{answers:?}");
}

#[test]
fn garbage() {
    let answers =
        counted(4_000_000..4_200_000, |rng| agree::read(&bytes(rng, 40), LONGEST_DATA).answer);
    assert!(answers[1] > 50_000 && answers[3] > 5_000, "{answers:?}");
}

#[test]
fn written() {
    let answers = counted(5_000_000..5_500_000, |rng| {
        let (packet, command) = (number(rng), command(rng));
        let room = rng.gen_range(0..=LONGEST_WRITTEN + 10);
        agree::write(packet, command, room).err().unwrap_or(0)
    });
    assert!([0, 4, 16].iter().all(|&answer| answers[answer] > 30_000), "{answers:?}");
}
