//! Every value of every command, read and written.

use crate::agree::{self, refused, ROOM};
use crate::device::LONGEST_DATA;
use crate::made::pulse;
use independent::rehamove3::{compose, ChannelConfig, Command};

const RESULTS: [u8; 7] = [0, 1, 2, 4, 7, 10, 11];

/// A packet of this data is read as this command, if the command is good, and the command is written
/// as that packet; else each is 4.
fn both(command: Command, good: bool) {
    let bytes = compose(33, command.number(), &command.data());
    let reading = agree::read(&bytes, LONGEST_DATA);
    let written = agree::write(33, command, ROOM);
    if good {
        assert_eq!((reading.answer, reading.packet), (0, 33));
        assert_eq!((reading.command, reading.data), (Some(command), command.data()));
        assert_eq!(written, Ok(bytes));
    } else {
        assert_eq!(reading, refused(4, bytes.len()), "{command:?}");
        assert_eq!(written, Err(4), "{command:?}");
    }
}

/// "0, 1, 2, 4, 7, 10, 11 in every acknowledgement."
#[test]
fn results() {
    for result in 0..=255 {
        let good = RESULTS.contains(&result);
        both(Command::LlInitAck { result }, good);
        both(Command::LlStopAck { result }, good);
    }
}

/// "The electrode's channel is 0 to 3 with result 10, any byte else."
#[test]
fn results_and_electrodes() {
    let mut good_ones = 0;
    for result in 0..=255 {
        for electrode in 0..=255 {
            let good = RESULTS.contains(&result) && (result != 10 || electrode <= 3);
            both(Command::LlChannelConfigAck { result, electrode }, good);
            good_ones += u32::from(good);
        }
    }
    assert_eq!(good_ones, 6 * 256 + 4);
}

/// 0 to 6. A greater one than 7 has no place in its three bits and can only be asked to be written.
#[test]
fn voltages() {
    for voltage in 0..=255 {
        let command = Command::LlInit { voltage };
        if voltage <= 7 {
            both(command, voltage <= 6);
        } else {
            assert_eq!(agree::write(33, command, ROOM), Err(4));
        }
    }
}

/// 0 or 1, and 0 to 3: greater ones have no place in their bits.
#[test]
fn executions_and_channels() {
    let mut good_ones = 0;
    for execution in 0..=255 {
        for channel in 0..=255 {
            let pulse = pulse(&[(100, 302), (200, 299)]);
            let command = Command::LlChannelConfig(ChannelConfig { execution, channel, pulse });
            if execution <= 1 && channel <= 3 {
                both(command, true);
                good_ones += 1;
            } else {
                assert_eq!(agree::write(33, command, ROOM), Err(4));
            }
        }
    }
    assert_eq!(good_ones, 8);
}

/// 0 to 63 of every kind.
#[test]
fn packet_numbers() {
    for packet in 0..=255 {
        for command in [
            Command::LlInit { voltage: 3 },
            Command::LlInitAck { result: 4 },
            Command::LlChannelConfig(ChannelConfig {
                execution: 1,
                channel: 2,
                pulse: pulse(&[(5, 310), (50, 299)]),
            }),
            Command::LlChannelConfigAck { result: 10, electrode: 1 },
            Command::LlStop,
            Command::LlStopAck { result: 7 },
        ] {
            let written = agree::write(packet, command, ROOM);
            if packet <= 63 {
                let whole = compose(packet, command.number(), &command.data());
                let reading = agree::read(&whole, LONGEST_DATA);
                assert_eq!((reading.packet, reading.command), (packet, Some(command)));
                assert_eq!(written, Ok(whole));
            } else {
                assert_eq!(written, Err(4));
            }
        }
    }
}

/// Every packet number with every command number, and no data: all 65,536 first two bytes.
#[test]
fn every_number() {
    for packet in 0..=63 {
        for number in 0..=0x3FF {
            let bytes = compose(packet, number, &[]);
            let reading = agree::read(&bytes, 0);
            if matches!(number, 0 | 1 | 2 | 3 | 5) {
                assert_eq!(reading, refused(4, bytes.len()));
                continue;
            }
            let other = Command::Other { number };
            let command = if number == 4 { Command::LlStop } else { other };
            assert_eq!((reading.answer, reading.packet), (0, packet));
            assert_eq!((reading.command, reading.used), (Some(command), bytes.len()));
        }
    }
    for number in 0..=u16::MAX {
        assert_eq!(agree::write(9, Command::Other { number }, ROOM), Err(4));
    }
}

/// Data of every length: one is right for a command that is carried, and any for another.
#[test]
fn every_number_with_every_length() {
    for number in (0..=20).chain([255, 256, 257, 258, 259, 260, 261, 512, 1_023]) {
        for length in 0..=70 {
            let right = match number {
                0 | 1 | 5 => length == 1,
                // Nothing but zeros is a point with a code that is not good.
                2 => false,
                3 => length == 2,
                4 => length == 0,
                _ => true,
            };
            let reading = agree::read(&compose(9, number, &vec![0; length]), LONGEST_DATA);
            assert_eq!(reading.answer, if right { 0 } else { 4 }, "{number} {length}");
            let other = reading.command == Some(Command::Other { number });
            assert_eq!(other, number > 5);
        }
    }
}
