//! The values of each command but a pulse's, and how much data each has.

use independent::rehamove3::{compose, read, write, ChannelConfig, Command, Point, Pulse};

/// Whether the packet of this data is read, with the command that it is then.
fn found(number: u16, data: &[u8]) -> Option<Command> {
    let reading = read(&compose(3, number, data), 1_188);
    assert_eq!(reading.answer, if reading.command.is_some() { 0 } else { 4 });
    assert_eq!(reading.data, if reading.command.is_some() { data } else { &[] });
    reading.command
}

/// A command is written exactly if it is good, and then reads as it was.
fn written(command: Command, good: bool) {
    let bytes = write(50, command);
    assert_eq!(bytes.is_some(), good, "{command:?}");
    if let Some(bytes) = bytes {
        let reading = read(&bytes, 1_188);
        let told = (reading.answer, reading.packet, reading.command);
        assert_eq!(told, (0, 50, Some(command)));
    }
}

/// A pulse of points that have neither time nor charge.
fn still(number: usize) -> Pulse {
    Pulse::of_points(&vec![Point { duration: 0, code: 300 }; number])
}

/// Every bit of the byte but the three of the voltage is reserved.
#[test]
fn high_voltages() {
    let good: Vec<u8> = (0..=255).filter(|&byte| found(0, &[byte]).is_some()).collect();
    assert_eq!(good, [0, 2, 4, 6, 8, 10, 12]);
    for voltage in 0..=255 {
        let command = Command::LlInit { voltage };
        written(command, voltage <= 6);
        if voltage <= 6 {
            assert_eq!(found(0, &[2 * voltage]), Some(command));
        }
    }
}

#[test]
fn results() {
    for result in 0..=255 {
        let good = [0, 1, 2, 4, 7, 10, 11].contains(&result);
        let [init, stop] = [Command::LlInitAck { result }, Command::LlStopAck { result }];
        assert_eq!(found(1, &[result]), good.then_some(init));
        assert_eq!(found(5, &[result]), good.then_some(stop));
        written(init, good);
        written(stop, good);
    }
}

/// The electrode's channel is one of the four if the result says that there is one.
#[test]
fn results_and_electrodes() {
    for result in 0..=255 {
        for electrode in 0..=255 {
            let known = [0, 1, 2, 4, 7, 10, 11].contains(&result);
            let good = known && (result != 10 || electrode < 4);
            let command = Command::LlChannelConfigAck { result, electrode };
            assert_eq!(found(3, &[result, electrode]), good.then_some(command));
            written(command, good);
        }
    }
}

/// Every first byte of an Ll_channel_config, before 0 to 17 points: bit 4 is reserved, and the points are
/// one more than the lowest four bits say.
#[test]
fn first_bytes_and_point_counts() {
    for first in 0..=255u8 {
        for count in 0..=17 {
            let data = [&[first][..], &[0x00, 0x04, 0xB0, 0x00].repeat(count)].concat();
            let good = first & 0x10 == 0 && usize::from(first & 0x0F) + 1 == count;
            let config = || ChannelConfig {
                execution: first >> 7,
                channel: first >> 5 & 3,
                pulse: still(count),
            };
            let expected = good.then(|| Command::LlChannelConfig(config()));
            assert_eq!(found(2, &data), expected, "{first:02X} {count}");
            if let Some(command) = expected {
                assert_eq!(command.data(), data);
                written(command, true);
            }
        }
    }
}

#[test]
fn executions_and_channels() {
    for execution in 0..=255 {
        for channel in 0..=255 {
            let config = ChannelConfig { execution, channel, pulse: still(1) };
            written(Command::LlChannelConfig(config), execution <= 1 && channel <= 3);
        }
    }
}

/// "The packet number ranges from 0 to 63."
#[test]
fn packet_numbers() {
    for packet in 0..=255 {
        for command in [Command::LlStop, Command::LlInit { voltage: 6 }] {
            let bytes = write(packet, command);
            assert_eq!(bytes.is_some(), packet <= 63);
            if let Some(bytes) = bytes {
                let reading = read(&bytes, 1);
                assert_eq!((reading.packet, reading.command), (packet, Some(command)));
            }
        }
    }
}

/// Both numbers, in their two bytes.
#[test]
fn every_packet_number_with_every_command_number() {
    for packet in 0..64 {
        for number in 0..1024 {
            let reading = read(&compose(packet, number, &[]), 0);
            match number {
                4 => assert_eq!(reading.command, Some(Command::LlStop)),
                0..=5 => assert_eq!(reading.answer, 4),
                _ => assert_eq!(reading.command, Some(Command::Other { number })),
            }
            assert_eq!(reading.packet, if reading.answer == 0 { packet } else { 0 });
        }
    }
}

/// Too few or too many bytes for a command that is carried; any of another one, which is not written.
#[test]
fn every_number_with_many_lengths() {
    for number in 0..1024 {
        let right = match number {
            0 | 1 | 5 => Some(1),
            2 => Some(5),
            3 => Some(2),
            4 => Some(0),
            _ => None,
        };
        for length in (0..=70).chain([500, 1_186]) {
            // One point without current, if it is a command 2.
            let point = [0x00, 0x00, 0x04, 0xB0, 0x00];
            let zeros = std::iter::repeat(0);
            let data: Vec<u8> = match number {
                2 => point.into_iter().chain(zeros).take(length).collect(),
                _ => zeros.take(length).collect(),
            };
            let command = found(number, &data);
            assert_eq!(command.is_some(), right.is_none_or(|right| right == length));
            assert_eq!(command == Some(Command::Other { number }), right.is_none());
        }
        written(Command::Other { number }, false);
    }
}
