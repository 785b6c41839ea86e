//! The fast writer of the RehaMove3's packets against the slow one.

use crate::counted::counted;
use crate::random_pulses::command;
use independent::plain::codec::Wrote;
use independent::plain::rehamove3 as fast;
use independent::rehamove3::{self as slow, ChannelConfig, Command, Point, Pulse};
use rand::Rng;

/// Writes with both to an output of `room` bytes.
fn write(packet: u8, command: Command, room: usize) -> Wrote {
    let mut out = [0x3C; 140];
    let mut expected = out;
    let told = match slow::write(packet, command) {
        None => Wrote { answer: 4, used: 0 },
        Some(bytes) if bytes.len() > room => Wrote { answer: 16, used: 0 },
        Some(bytes) => {
            expected[..bytes.len()].copy_from_slice(&bytes);
            Wrote { answer: 0, used: bytes.len() }
        }
    };
    let wrote = fast::write(packet, command, &mut out[..room]);
    assert_eq!((wrote, out), (told, expected), "{packet} {command:?} {room}");
    wrote
}

#[test]
fn written() {
    let answers = counted(8_000_000..9_000_000, |rng| {
        let packet = if rng.gen_ratio(1, 20) { rng.gen() } else { rng.gen_range(0..64) };
        write(packet, command(rng), rng.gen_range(0..=140)).answer
    });
    assert!([0, 4, 16].iter().all(|&answer| answers[answer] > 30_000), "{answers:?}");
}

#[test]
fn every_value_written() {
    for packet in 0..=255 {
        for byte in 0..=255u8 {
            for command in [
                Command::LlInit { voltage: byte },
                Command::LlInitAck { result: byte },
                Command::LlChannelConfigAck { result: byte, electrode: packet },
                Command::LlStop,
                Command::LlStopAck { result: byte },
                Command::Other { number: byte.into() },
            ] {
                write(packet, command, 140);
            }
        }
    }
}

/// Each number of points that can be told, whatever the points are.
#[test]
fn every_number_of_points() {
    for points in [[Point { duration: 10, code: 300 }; 16], [Point::default(); 16]] {
        for number in 0..=u16::MAX {
            let pulse = Pulse { number, points };
            let config = ChannelConfig { execution: 1, channel: 3, pulse };
            let wrote = write(1, Command::LlChannelConfig(config), 140);
            assert_eq!(wrote.answer == 0, number == 16 && points[0].code == 300);
        }
    }
}
