//! The examples of section 7 of source 002, and packets worked out by hand from its tables.

use crate::agree::{self, refused, ROOM};
use crate::device::LONGEST_DATA;
use crate::made::{config, pulse};
use independent::rehamove3::{ChannelConfig, Command, Reading};

/// A command and its packet, each made from the other.
fn stands(packet: u8, command: Command, bytes: &[u8], data: &[u8]) {
    assert_eq!(agree::write(packet, command, ROOM), Ok(bytes.to_vec()));
    let (used, data) = (bytes.len(), data.to_vec());
    let reading = Reading { answer: 0, used, packet, command: Some(command), charge: 0, data };
    assert_eq!(agree::read(bytes, LONGEST_DATA), reading);
}

/// Section 7.1. The pulse: 250 µs of 20 mA, 100 µs of nothing, 250 µs of -20 mA.
#[test]
fn low_level() {
    let bytes = [0xF0, 0x81, 0x55, 0x81, 0x58, 0x81, 0x55, 0x81, 0x55, 0, 0, 0, 0x0F];
    stands(0, Command::LlInit { voltage: 0 }, &bytes, &[0]);
    let bytes = [
        0xF0, 0x81, 0x55, 0x81, 0x4E, 0x81, 0xD3, 0x81, 0xAF, 0x04, 0x02, 0x82, 0x81, 0x5A, 0xA5,
        0x50, 0x00, 0x06, 0x44, 0xB0, 0x00, 0x81, 0x5A, 0xA4, 0x10, 0x00, 0x0F,
    ];
    let data = [0x82, 0x0F, 0xA5, 0x50, 0, 0x06, 0x44, 0xB0, 0, 0x0F, 0xA4, 0x10, 0];
    stands(1, config(pulse(&[(250, 340), (100, 300), (250, 260)])), &bytes, &data);
    let bytes = [0xF0, 0x81, 0x55, 0x81, 0x59, 0x81, 0x9C, 0x81, 0x78, 0x08, 0x04, 0x0F];
    stands(2, Command::LlStop, &bytes, &[]);
}

/// Section 7.2: "other commands" with their numbers, which are not written.
#[test]
fn mid_level() {
    let examples: [(&[u8], u8, u16, &[u8]); 4] = [
        (&[0xF0, 0x81, 0x55, 0x81, 0x58, 0x81, 0x75, 0x81, 0x29, 0, 0x1E, 0, 0x0F], 0, 30, &[0]),
        (
            &[
                0xF0, 0x81, 0x55, 0x81, 0x7E, 0x81, 0x5D, 0x81, 0x42, 0x04, 0x20, 0x03, 0x23, 0x00,
                0x50, 0x0C, 0x85, 0x50, 0x00, 0x06, 0x44, 0xB0, 0x00, 0x0C, 0x84, 0x10, 0x00, 0x23,
                0x00, 0x28, 0x06, 0x45, 0x00, 0x00, 0x06, 0x44, 0xB0, 0x00, 0x06, 0x44, 0x60, 0x00,
                0x0F,
            ],
            1,
            32,
            &[
                0x03, 0x23, 0x00, 0x50, 0x0C, 0x85, 0x50, 0x00, 0x06, 0x44, 0xB0, 0x00, 0x0C, 0x84,
                0x10, 0x00, 0x23, 0x00, 0x28, 0x06, 0x45, 0x00, 0x00, 0x06, 0x44, 0xB0, 0x00, 0x06,
                0x44, 0x60, 0x00,
            ],
        ),
        (&[0xF0, 0x81, 0x55, 0x81, 0x58, 0x81, 0x16, 0x81, 0x94, 8, 0x24, 2, 0x0F], 2, 36, &[2]),
        (&[0xF0, 0x81, 0x55, 0x81, 0x59, 0x81, 0x14, 0x81, 0x18, 0x0C, 0x22, 0x0F], 3, 34, &[]),
    ];
    for (bytes, packet, number, data) in examples {
        let (command, data) = (Some(Command::Other { number }), data.to_vec());
        let used = bytes.len();
        let reading = Reading { answer: 0, used, packet, command, charge: 0, data };
        assert_eq!(agree::read(bytes, LONGEST_DATA), reading);
        assert_eq!(agree::write(packet, Command::Other { number }, ROOM), Err(4));
    }
}

/// Sections 4.2 and 4.3, with the greatest packet number and with bytes that are stuffed.
#[test]
fn every_other_command() {
    let bytes = [0xF0, 0x81, 0x55, 0x81, 0x58, 0x81, 0x02, 0x81, 0xEA, 0xFC, 0, 0x0C, 0x0F];
    stands(63, Command::LlInit { voltage: 6 }, &bytes, &[0x0C]);
    let bytes = [0xF0, 0x81, 0x55, 0x81, 0x58, 0x81, 0x66, 0x81, 0x64, 0, 1, 0, 0x0F];
    stands(0, Command::LlInitAck { result: 0 }, &bytes, &[0]);
    let bytes = [0xF0, 0x81, 0x55, 0x81, 0x58, 0x81, 0x41, 0x81, 0x3C, 0xFC, 1, 11, 0x0F];
    stands(63, Command::LlInitAck { result: 11 }, &bytes, &[11]);
    let bytes = [0xF0, 0x81, 0x55, 0x81, 0x5B, 0x81, 0x19, 0x81, 0x5C, 4, 3, 10, 3, 0x0F];
    stands(1, Command::LlChannelConfigAck { result: 10, electrode: 3 }, &bytes, &[10, 3]);
    let bytes =
        [0xF0, 0x81, 0x55, 0x81, 0x45, 0x81, 0x70, 0x81, 0xFA, 0x81, 0xA5, 3, 7, 0x81, 0xD4, 0x0F];
    stands(60, Command::LlChannelConfigAck { result: 7, electrode: 0x81 }, &bytes, &[7, 0x81]);
    let bytes = [0xF0, 0x81, 0x55, 0x81, 0x58, 0x81, 0x13, 0x81, 0x20, 8, 5, 1, 0x0F];
    stands(2, Command::LlStopAck { result: 1 }, &bytes, &[1]);
    let bytes = [0xF0, 0x81, 0x55, 0x81, 0x58, 0x81, 0xFB, 0x81, 0x30, 0x81, 0xA5, 4, 0x0F];
    stands(60, Command::LlStop, &bytes, &[]);
    let bytes =
        [0xF0, 0x81, 0x55, 0x81, 0x44, 0x81, 0xF3, 0x81, 0xB9, 20, 2, 0x60, 0, 4, 0xB0, 0, 0x0F];
    let empty = ChannelConfig { execution: 0, channel: 3, pulse: pulse(&[(0, 300)]) };
    stands(5, Command::LlChannelConfig(empty), &bytes, &[0x60, 0, 4, 0xB0, 0]);
}

/// "Reading shows any net charge": 4,095 µs of 130 mA, which is not written.
#[test]
fn a_net_charge() {
    let bytes = [
        0xF0, 0x81, 0x55, 0x81, 0x44, 0x81, 0x1D, 0x81, 0x7C, 20, 2, 0x80, 0xFF, 0xF8, 0xC0, 0,
        0x0F,
    ];
    let command = config(pulse(&[(4_095, 560)]));
    let data = vec![0x80, 0xFF, 0xF8, 0xC0, 0];
    let charge = 1_064_700;
    let reading = Reading { answer: 0, used: 17, packet: 5, command: Some(command), charge, data };
    assert_eq!(agree::read(&bytes, 5), reading);
    assert_eq!(agree::write(5, command, ROOM), Err(4));
}

/// A byte A5 of the checksum is stuffed to 81 F0, one 5A to 81 0F and one D4 to 81 81: straight after 81
/// there is no start or stop.
#[test]
fn checksums_that_look_like_a_start_or_a_stop() {
    let stuffed = [
        ([0xF0, 0x3F], [0x00, 0x28]),
        ([0x24, 0xF0], [0x01, 0x15]),
        ([0x0F, 0xA0], [0x00, 0x50]),
        ([0xF6, 0x0F], [0x00, 0x1B]),
        ([0x81, 0x9A], [0x01, 0x3D]),
        ([0x1F, 0x81], [0x00, 0x51]),
    ];
    for ([high, low], [first, second]) in stuffed {
        let bytes = [0xF0, 0x81, 0x55, 0x81, 0x59, 0x81, high, 0x81, low, first, second, 0x0F];
        let reading = agree::read(&bytes, 0);
        let number = u16::from_be_bytes([first, second]);
        assert_eq!((reading.answer, reading.used), (0, 12));
        assert_eq!((reading.packet, reading.command), (0, Some(Command::Other { number })));
    }
}

/// "Answers and order are Req 12's": 1, 3, 4, 16.
#[test]
fn the_order_of_the_answers() {
    let right = [0xF0, 0x81, 0x55, 0x81, 0x58, 0x81, 0x13, 0x81, 0x20, 8, 5, 1, 0x0F];
    let with = |changes: &[(usize, u8)]| {
        let mut bytes = right;
        for &(place, byte) in changes {
            bytes[place] = byte;
        }
        agree::read(&bytes, 0)
    };
    assert_eq!(agree::read(&right[..12], 0), refused(1, 0));
    // The bad result 3, another length, and a checksum that is right for neither.
    assert_eq!(with(&[(11, 3), (4, 0x59)]), refused(3, 13));
    // Another length, and then the bad result 3, each with its right checksum and no room.
    assert_eq!(with(&[(4, 0x59)]), refused(4, 13));
    assert_eq!(with(&[(11, 3), (6, 0x33), (8, 0x62)]), refused(4, 13));
    assert_eq!(with(&[]), refused(16, 0));
    assert_eq!(agree::read(&right, 1).answer, 0);
}
