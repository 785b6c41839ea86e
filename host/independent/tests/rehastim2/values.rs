//! The values of each command, and how much data each has.

use independent::rehastim2::{compose, read, write, ChannelList, Command};

/// Whether the packet of this data is read, with the command that it is then.
fn found(number: u8, data: &[u8]) -> Option<Command> {
    let reading = read(&compose(3, number, data), 60);
    assert_eq!(reading.answer, if reading.command.is_some() { 0 } else { 4 });
    assert_eq!(reading.data, if reading.command.is_some() { data } else { &[] });
    reading.command
}

/// A command is written exactly if it is good, and then reads as it was.
fn written(command: Command, good: bool) {
    let bytes = write(200, command);
    assert_eq!(bytes.is_some(), good, "{command:?}");
    if let Some(bytes) = bytes {
        let reading = read(&bytes, 60);
        let told = (reading.answer, reading.packet, reading.command);
        assert_eq!(told, (0, 200, Some(command)));
    }
}

#[test]
fn results() {
    for result in i8::MIN..=i8::MAX {
        let good = (-8..=0).contains(&result);
        let data = [result as u8];
        let [init, list] =
            [Command::InitAck { result }, Command::InitChannelListModeAck { result }];
        assert_eq!(found(2, &data), good.then_some(init));
        assert_eq!(found(31, &data), good.then_some(list));
        written(init, good);
        written(list, good);
    }
}

/// The mode is there exactly if the result is 0.
#[test]
fn results_and_modes() {
    for result in i8::MIN..=i8::MAX {
        let alone = Command::GetStimulationModeAck { result, mode: 0 };
        let good = (-8..0).contains(&result);
        assert_eq!(found(11, &[result as u8]), good.then_some(alone));
        for mode in 0..=255 {
            let command = Command::GetStimulationModeAck { result, mode };
            let both = result == 0 && mode <= 2;
            assert_eq!(found(11, &[result as u8, mode]), both.then_some(command));
            written(command, both || good && mode == 0);
        }
    }
}

/// Main interval 0 and no active channel are good; 2049 and more are not.
#[test]
fn main_intervals_and_channels() {
    for main in 0..=u16::MAX {
        let [msb, lsb] = main.to_be_bytes();
        let list = ChannelList { main_stimulation_interval: main, ..ChannelList::default() };
        let command = Command::InitChannelListMode(list);
        let good = main <= 2048;
        assert_eq!(found(30, &[0, 0, 0, 0, msb, lsb, 0]), good.then_some(command));
        written(command, good);
    }
}

#[test]
fn the_other_values_of_a_channel_list() {
    for byte in 0..=255 {
        let none = ChannelList::default();
        for (place, list, most) in [
            (0, ChannelList { low_frequency_factor: byte, ..none }, 7),
            (1, ChannelList { active_channels: byte, ..none }, 255),
            (2, ChannelList { active_low_frequency_channels: byte, ..none }, 255),
            (3, ChannelList { inter_pulse_interval: byte, ..none }, 255),
            (6, ChannelList { channel_execution: byte, ..none }, 1),
        ] {
            let mut data = [0; 7];
            data[place] = byte;
            let command = Command::InitChannelListMode(list);
            assert_eq!(found(30, &data), (byte <= most).then_some(command));
            written(command, byte <= most);
        }
    }
}

#[test]
fn versions_and_echoes() {
    for byte in 0..=255 {
        let [init, unknown] =
            [Command::Init { version: byte }, Command::UnknownCommand { echo: byte }];
        assert_eq!([found(1, &[byte]), found(3, &[byte])], [Some(init), Some(unknown)]);
        written(init, true);
        written(unknown, true);
    }
}

/// Too few or too many bytes for a command that is carried; any of another one, which is not written.
#[test]
fn every_number_with_every_length() {
    for number in 0..=255 {
        let right = match number {
            1 | 2 | 3 | 31 => Some(1),
            4 | 10 => Some(0),
            11 => Some(2),
            30 => Some(7),
            _ => None,
        };
        for length in 0..=60 {
            let command = found(number, &vec![0; length]);
            assert_eq!(command.is_some(), right.is_none_or(|right| right == length));
            assert!(command.is_none_or(|command| command.number() == number));
            let other = Command::Other { number };
            assert_eq!(command == Some(other), right.is_none());
        }
        written(Command::Other { number }, false);
    }
}
