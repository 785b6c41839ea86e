//! The fast codec of the RehaStim2's packets against the slow one.

use crate::counted::counted;
use crate::random_bytes::{bytes, damaged};
use crate::random_packets::{command, packet};
use crate::seeded::seeded;
use independent::plain::codec::Wrote;
use independent::plain::rehastim2::{self as fast, Read};
use independent::rehastim2::{self as slow, compose, Command, Reading};
use rand::rngs::SmallRng;
use rand::Rng;

/// Reads with both into an output of `room` bytes, and hands back the answer.
fn agree(bytes: &[u8], room: usize) -> u8 {
    let Reading { answer, used, packet, command, data } = slow::read(bytes, room);
    let size = data.len() as u8;
    let mut out = [0x3C; 64];
    let mut expected = out;
    expected[..data.len()].copy_from_slice(&data);
    let read = fast::read(bytes, &mut out[..room]);
    assert_eq!(read, Read { used, answer, packet, size, command }, "{bytes:02X?} {room}");
    assert_eq!(out, expected, "{bytes:02X?} {room}");
    answer
}

/// Any room for data, most often enough.
fn room(rng: &mut SmallRng) -> usize {
    if rng.gen_ratio(1, 4) {
        rng.gen_range(0..=60)
    } else {
        60
    }
}

#[test]
fn packets() {
    let answers = counted(0..1_000_000, |rng| agree(&packet(rng), room(rng)));
    assert!(answers[0] > 400_000 && answers[4] > 50_000 && answers[16] > 1_000, "{answers:?}");
}

#[test]
fn damaged_packets() {
    let answers = counted(1_000_000..2_000_000, |rng| {
        let packet = packet(rng);
        agree(&damaged(rng, packet), room(rng))
    });
    let [read, unfinished, _, checksum, not_good, ..] = answers;
    assert!(
        [read, unfinished, checksum, not_good].iter().all(|&times| times > 20_000),
        "{answers:?}"
    );
}

#[test]
fn short_packets() {
    seeded(2_000_000..2_050_000, |rng| {
        let packet = packet(rng);
        for length in 0..packet.len() {
            assert_eq!(agree(&packet[..length], 60), 1);
            agree(&packet[length..], 60);
        }
    });
}

/// Garbage, packets and damaged ones, one behind the other.
#[test]
fn streams() {
    let answers = counted(3_000_000..3_500_000, |rng| {
        let mut stream = bytes(rng, 20);
        for _ in 0..rng.gen_range(0..3) {
            let packet = packet(rng);
            stream.extend(if rng.gen() { packet } else { damaged(rng, packet) });
            stream.extend(bytes(rng, 10));
        }
        agree(&stream, room(rng))
    });
    assert!([0, 1, 3, 4].iter().all(|&answer| answers[answer] > 20_000), "{answers:?}");
}

#[test]
fn garbage() {
    seeded(4_000_000..4_500_000, |rng| {
        agree(&bytes(rng, 40), 60);
    });
}

/// A packet with its right checksum and its right length around any bytes.
#[test]
fn any_bytes_covered() {
    let answers = counted(5_000_000..5_500_000, |rng| {
        let longest = [4, 20, 300][rng.gen_range(0..3)];
        let covered = bytes(rng, longest);
        let header =
            [0xF0, 0x81, slow::checksum(&covered) ^ 0x55, 0x81, covered.len() as u8 ^ 0x55];
        agree(&[&header, &covered[..], &[0x0F]].concat(), room(rng))
    });
    assert!([0, 1, 3, 4].iter().all(|&answer| answers[answer] > 5_000), "{answers:?}");
}

/// Every data length, with every length past the longest that a byte can tell.
#[test]
fn every_length() {
    seeded(6_000_000..6_000_200, |rng| {
        for length in 0..=300 {
            let data: Vec<u8> = (0..length).map(|_| rng.gen()).collect();
            for data in [data, vec![0xF0; length]] {
                let answer = agree(&compose(rng.gen(), 60, &data), 60);
                assert_eq!(answer, if length <= 60 { 0 } else { 4 });
            }
        }
    });
}

/// Every byte of a packet replaced by every other.
#[test]
fn every_byte_replaced() {
    seeded(7_000_000..7_000_300, |rng| {
        let mut packet = packet(rng);
        for place in 0..packet.len() {
            let was = packet[place];
            for byte in 0..=255 {
                packet[place] = byte;
                agree(&packet, 60);
            }
            packet[place] = was;
        }
    });
}

/// Writes with both to an output of `room` bytes.
fn write(packet: u8, command: Command, room: usize) -> Wrote {
    let mut out = [0x3C; 40];
    let mut expected = out;
    let told = match slow::write(packet, command) {
        None => Wrote { answer: 4, used: 0 },
        Some(bytes) if bytes.len() > room => Wrote { answer: 16, used: 0 },
        Some(bytes) => {
            expected[..bytes.len()].copy_from_slice(&bytes);
            Wrote { answer: 0, used: bytes.len() }
        }
    };
    let wrote = fast::write(packet, command, &mut out[..room]);
    assert_eq!((wrote, out), (told, expected), "{packet} {command:?} {room}");
    wrote
}

#[test]
fn written() {
    let answers = counted(8_000_000..8_500_000, |rng| {
        let command = command(rng);
        let packet = rng.gen();
        write(packet, command, rng.gen_range(0..=30)).answer
    });
    assert!([0, 4, 16].iter().all(|&answer| answers[answer] > 30_000), "{answers:?}");
}

#[test]
fn every_value_written() {
    for packet in 0..=255 {
        for byte in 0..=255u8 {
            let result = byte as i8;
            for command in [
                Command::Init { version: byte },
                Command::InitAck { result },
                Command::UnknownCommand { echo: byte },
                Command::Watchdog,
                Command::GetStimulationMode,
                Command::GetStimulationModeAck { result: 0, mode: byte },
                Command::GetStimulationModeAck { result, mode: 0 },
                Command::GetStimulationModeAck { result, mode: packet },
                Command::InitChannelListModeAck { result },
                Command::Other { number: byte },
            ] {
                write(packet, command, 40);
            }
        }
    }
}
