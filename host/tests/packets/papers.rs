//! Packets worked out by hand from tables 5 and 6 and section 4 of source 000.

use crate::agree::{self, refused, ROOM};
use independent::rehastim2::{ChannelList, Command, Reading};

/// A command and its packet, each made from the other.
fn stands(packet: u8, command: Command, bytes: &[u8], data: &[u8]) {
    assert_eq!(agree::write(packet, command, ROOM), Ok(bytes.to_vec()));
    let (used, data) = (bytes.len(), data.to_vec());
    let reading = Reading { answer: 0, used, packet, command: Some(command), data };
    assert_eq!(agree::read(bytes, 60), reading);
}

#[test]
fn every_command() {
    stands(0, Command::Watchdog, &[0xF0, 0x81, 0x49, 0x81, 0x57, 0, 4, 0x0F], &[]);
    let bytes = [0xF0, 0x81, 0x76, 0x81, 0x57, 1, 10, 0x0F];
    stands(1, Command::GetStimulationMode, &bytes, &[]);
    let bytes = [0xF0, 0x81, 0x47, 0x81, 0x56, 0, 1, 1, 0x0F];
    stands(0, Command::Init { version: 1 }, &bytes, &[1]);
    let bytes = [0xF0, 0x81, 0x69, 0x81, 0x56, 7, 2, 0, 0x0F];
    stands(7, Command::InitAck { result: 0 }, &bytes, &[0]);
    let bytes = [0xF0, 0x81, 0x86, 0x81, 0x56, 7, 2, 0xFB, 0x0F];
    stands(7, Command::InitAck { result: -5 }, &bytes, &[0xFB]);
    let bytes = [0xF0, 0x81, 0x11, 0x81, 0x51, 9, 11, 0, 2, 0x0F];
    stands(9, Command::GetStimulationModeAck { result: 0, mode: 2 }, &bytes, &[0, 2]);
    let bytes = [0xF0, 0x81, 0x1E, 0x81, 0x56, 9, 11, 0xF8, 0x0F];
    stands(9, Command::GetStimulationModeAck { result: -8, mode: 0 }, &bytes, &[0xF8]);
    let bytes = [0xF0, 0x81, 0x88, 0x81, 0x56, 3, 31, 0xFE, 0x0F];
    stands(3, Command::InitChannelListModeAck { result: -2 }, &bytes, &[0xFE]);
    let bytes = [0xF0, 0x81, 0x77, 0x81, 0x51, 5, 3, 0x81, 0xA5, 0x0F];
    stands(5, Command::UnknownCommand { echo: 0xF0 }, &bytes, &[0xF0]);
}

/// The longest packet that is written: all that can be stuffed is.
#[test]
fn the_longest() {
    let list = ChannelList {
        low_frequency_factor: 0,
        active_channels: 0xF0,
        active_low_frequency_channels: 0x0F,
        inter_pulse_interval: 0x81,
        main_stimulation_interval: 0x00F0,
        channel_execution: 0,
    };
    let bytes = [
        0xF0, 0x81, 0x78, 0x81, 0x5B, 0x81, 0xA5, 30, 0, 0x81, 0xA5, 0x81, 0x5A, 0x81, 0xD4, 0,
        0x81, 0xA5, 0, 0x0F,
    ];
    assert_eq!(bytes.len(), yarrowbell::rehastim2::LONGEST_WRITTEN);
    let data = [0, 0xF0, 0x0F, 0x81, 0, 0xF0, 0];
    stands(0xF0, Command::InitChannelListMode(list), &bytes, &data);
}

/// "A checksum of A5 is stuffed to 81 F0 and one of 5A to 81 0F, so an F0 or 0F straight after 81
/// there is no start or stop."
#[test]
fn checksums_that_look_like_a_start_or_a_stop() {
    for (stuffed, packet) in [(0xF0, 0xC4), (0x0F, 0xDC), (0x81, 0x86)] {
        let bytes = [0xF0, 0x81, stuffed, 0x81, 0x57, packet, 4, 0x0F];
        stands(packet, Command::Watchdog, &bytes, &[]);
    }
}

/// "Other commands are given back as unknown with their number": ActualValues.
#[test]
fn another_command() {
    let bytes = [0xF0, 0x81, 0xAB, 0x81, 0x5D, 1, 60, 0, 0, 0, 0, 0, 0, 0x0F];
    let command = Some(Command::Other { number: 60 });
    let reading = Reading { answer: 0, used: 14, packet: 1, command, data: vec![0; 6] };
    assert_eq!(agree::read(&bytes, 6), reading);
    assert_eq!(agree::read(&bytes, 5), refused(16, 0));
    assert_eq!(agree::write(1, Command::Other { number: 60 }, ROOM), Err(4));
}

/// "Answers are 1 [..], 3 [..], 4 [..], and 16 [..], in that order".
#[test]
fn the_order_of_the_answers() {
    let right = [0xF0, 0x81, 0x86, 0x81, 0x56, 7, 2, 0xFB, 0x0F];
    assert_eq!(agree::read(&right[..8], 0), refused(1, 0));
    // Another result, and another checksum.
    assert_eq!(agree::read(&[0xF0, 0x81, 0x86, 0x81, 0x56, 7, 2, 0x09, 0x0F], 0), refused(3, 9));
    // Another length, and the bad result 9 with its right checksum.
    assert_eq!(agree::read(&[0xF0, 0x81, 0x86, 0x81, 0x57, 7, 2, 0xFB, 0x0F], 0), refused(4, 9));
    assert_eq!(agree::read(&[0xF0, 0x81, 0x56, 0x81, 0x56, 7, 2, 0x09, 0x0F], 0), refused(4, 9));
    assert_eq!(agree::read(&right, 0), refused(16, 0));
    assert_eq!(agree::read(&right, 1).answer, 0);
}

/// Too few bytes for the checksum, or another byte where its stuffing byte is to be; and then a length
/// that is not whole, with the checksum of nothing.
#[test]
fn headers_that_are_not_whole() {
    for content in [&[][..], &[0x55], &[0x55, 0x55], &[0x80, 0x49, 0x81, 0x57, 0, 4], &[0x81, 0x54]]
    {
        let bytes = [&[0xF0], content, &[0x0F]].concat();
        assert_eq!(agree::read(&bytes, 60), refused(3, bytes.len()), "{content:02X?}");
    }
    for behind in [&[][..], &[0x55], &[0x55, 0x55], &[0x81, 0x54], &[0x81, 0x55]] {
        let bytes = [&[0xF0, 0x81, 0x55], behind, &[0x0F]].concat();
        assert_eq!(agree::read(&bytes, 60), refused(4, bytes.len()), "{behind:02X?}");
    }
}
