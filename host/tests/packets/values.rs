//! Every value of every command, read and written.

use crate::agree::{self, refused, ROOM};
use independent::rehastim2::{compose, ChannelList, Command};

/// A packet of this data is read as this command, if the command is good, and the command is written
/// as that packet; else each is 4.
fn both(command: Command, good: bool) {
    let bytes = compose(200, command.number(), &command.data());
    let reading = agree::read(&bytes, 60);
    let written = agree::write(200, command, ROOM);
    if good {
        assert_eq!((reading.answer, reading.packet), (0, 200));
        assert_eq!((reading.command, reading.data), (Some(command), command.data()));
        assert_eq!(written, Ok(bytes));
    } else {
        assert_eq!(reading, refused(4, bytes.len()));
        assert_eq!(written, Err(4));
    }
}

/// "Signed bytes from 0 down to −8".
#[test]
fn results() {
    for result in i8::MIN..=i8::MAX {
        let good = (-8..=0).contains(&result);
        both(Command::InitAck { result }, good);
        both(Command::InitChannelListModeAck { result }, good);
    }
}

/// The mode is there exactly if the result is 0; with another one it is not written.
#[test]
fn results_and_modes() {
    for result in i8::MIN..=i8::MAX {
        let negative = (-8..0).contains(&result);
        for mode in 0..=255 {
            let command = Command::GetStimulationModeAck { result, mode };
            if result == 0 {
                both(command, mode <= 2);
            } else {
                let written = agree::write(1, command, ROOM);
                assert_eq!(written.is_ok(), negative && mode == 0);
                let bytes = compose(1, 11, &[result as u8, mode]);
                assert_eq!(agree::read(&bytes, 60), refused(4, bytes.len()));
            }
        }
        if result != 0 {
            both(Command::GetStimulationModeAck { result, mode: 0 }, negative);
        }
    }
    let bytes = compose(1, 11, &[0]);
    assert_eq!(agree::read(&bytes, 60), refused(4, bytes.len()));
}

/// "Range: [0, 2048]", high byte first.
#[test]
fn main_intervals() {
    for main in 0..=u16::MAX {
        let list = ChannelList { main_stimulation_interval: main, ..ChannelList::default() };
        both(Command::InitChannelListMode(list), main <= 2048);
    }
}

#[test]
fn the_other_values_of_a_channel_list() {
    for byte in 0..=255 {
        let none = ChannelList::default();
        for (list, most) in [
            (ChannelList { low_frequency_factor: byte, ..none }, 7),
            (ChannelList { active_channels: byte, ..none }, 255),
            (ChannelList { active_low_frequency_channels: byte, ..none }, 255),
            (ChannelList { inter_pulse_interval: byte, ..none }, 255),
            (ChannelList { channel_execution: byte, ..none }, 1),
        ] {
            both(Command::InitChannelListMode(list), byte <= most);
        }
    }
}

#[test]
fn versions_and_echoes() {
    for byte in 0..=255 {
        both(Command::Init { version: byte }, true);
        both(Command::UnknownCommand { echo: byte }, true);
    }
    both(Command::Watchdog, true);
    both(Command::GetStimulationMode, true);
}

/// Every number with data of every length: one is right for a command that is carried, and any for
/// another, which is not written.
#[test]
fn every_number_with_every_length() {
    for number in 0..=255 {
        let right = match number {
            1 | 2 | 3 | 31 => Some(1),
            4 | 10 => Some(0),
            11 => Some(2),
            30 => Some(7),
            _ => None,
        };
        for length in 0..=61 {
            let bytes = compose(9, number, &vec![0; length]);
            let reading = agree::read(&bytes, 61);
            let good = length <= 60 && right.is_none_or(|right| right == length);
            assert_eq!(reading.answer, if good { 0 } else { 4 });
            let other = reading.command == Some(Command::Other { number });
            assert_eq!(other, right.is_none() && length <= 60);
        }
        let other = agree::write(9, Command::Other { number }, ROOM);
        assert_eq!(other, Err(4));
    }
}
