//! Packets worked out by hand from tables 5 and 6 and section 4.

use independent::rehastim2::{checksum, compose, read, write, ChannelList, Command, Reading};

/// A command and its packet, each made from the other.
fn stands(packet: u8, command: Command, bytes: &[u8], data: &[u8]) {
    assert_eq!(write(packet, command).as_deref(), Some(bytes), "{command:?}");
    assert_eq!(compose(packet, command.number(), data), bytes);
    let read = read(bytes, data.len());
    let (used, command) = (bytes.len(), Some(command));
    assert_eq!(read, Reading { answer: 0, used, packet, command, data: data.to_vec() });
}

/// The remainder of 04 is 4 times 07, that of 01 is 07, and so on.
#[test]
fn without_data() {
    stands(0, Command::Watchdog, &[0xF0, 0x81, 0x1C ^ 0x55, 0x81, 2 ^ 0x55, 0, 4, 0x0F], &[]);
    let bytes = [0xF0, 0x81, 0x23 ^ 0x55, 0x81, 2 ^ 0x55, 1, 10, 0x0F];
    stands(1, Command::GetStimulationMode, &bytes, &[]);
}

#[test]
fn with_data() {
    let bytes = [0xF0, 0x81, 0x12 ^ 0x55, 0x81, 3 ^ 0x55, 0, 1, 1, 0x0F];
    stands(0, Command::Init { version: 1 }, &bytes, &[1]);
    let bytes = [0xF0, 0x81, 0x69, 0x81, 0x56, 7, 2, 0, 0x0F];
    stands(7, Command::InitAck { result: 0 }, &bytes, &[0]);
    let bytes = [0xF0, 0x81, 0x86, 0x81, 0x56, 7, 2, 0xFB, 0x0F];
    stands(7, Command::InitAck { result: -5 }, &bytes, &[0xFB]);
    let bytes = [0xF0, 0x81, 0x88, 0x81, 0x56, 3, 31, 0xFE, 0x0F];
    stands(3, Command::InitChannelListModeAck { result: -2 }, &bytes, &[0xFE]);
}

/// "If Result ≠ 0, then byte 8 = stop byte".
#[test]
fn mode_with_result_0_alone() {
    let bytes = [0xF0, 0x81, 0x11, 0x81, 0x51, 9, 11, 0, 2, 0x0F];
    stands(9, Command::GetStimulationModeAck { result: 0, mode: 2 }, &bytes, &[0, 2]);
    let bytes = [0xF0, 0x81, 0x1E, 0x81, 0x56, 9, 11, 0xF8, 0x0F];
    stands(9, Command::GetStimulationModeAck { result: -8, mode: 0 }, &bytes, &[0xF8]);
}

/// Bytes 7 to 13 of the table, in which the MSB comes first; 81 and 0F in them are stuffed.
#[test]
fn channel_list() {
    let list = ChannelList {
        low_frequency_factor: 7,
        active_channels: 0xFF,
        active_low_frequency_channels: 0x81,
        inter_pulse_interval: 0x0F,
        main_stimulation_interval: 2048,
        channel_execution: 1,
    };
    let bytes =
        [0xF0, 0x81, 0x42, 0x81, 0x5E, 2, 30, 7, 0xFF, 0x81, 0xD4, 0x81, 0x5A, 8, 0, 1, 0x0F];
    let data = [7, 0xFF, 0x81, 0x0F, 8, 0, 1];
    stands(2, Command::InitChannelListMode(list), &bytes, &data);
}

/// "This start byte (0xF0) is stuffed to 0x81, 0xA5", 0F to 81 5A and 81 to 81 D4.
#[test]
fn stuffed_pairs() {
    let cases = [
        (0xF0, [0x70, 0xA5], [0x77, 0xA5]),
        (0x0F, [0xA7, 0x5A], [0x84, 0x5A]),
        (0x81, [0xC7, 0xD4], [0x27, 0xD4]),
    ];
    for (byte, [checksum, stuffed], [checksum_in_data, stuffed_in_data]) in cases {
        let bytes = [0xF0, 0x81, checksum, 0x81, 0x56, 0x81, stuffed, 4, 0x0F];
        stands(byte, Command::Watchdog, &bytes, &[]);
        let bytes = [0xF0, 0x81, checksum_in_data, 0x81, 0x51, 5, 3, 0x81, stuffed_in_data, 0x0F];
        stands(5, Command::UnknownCommand { echo: byte }, &bytes, &[byte]);
    }
}

/// "A checksum of A5 is stuffed to 81 F0 and one of 5A to 81 0F"; one of D4 to 81 81.
#[test]
fn checksums_that_look_like_a_start_or_a_stop() {
    for (told, stuffed, [watchdog, mode]) in
        [(0xA5, 0xF0, [0xC4, 0xC6]), (0x5A, 0x0F, [0xDC, 0xDE]), (0xD4, 0x81, [0x86, 0x84])]
    {
        assert_eq!([checksum(&[watchdog, 4]), checksum(&[mode, 10])], [told; 2]);
        let bytes = [0xF0, 0x81, stuffed, 0x81, 0x57, watchdog, 4, 0x0F];
        stands(watchdog, Command::Watchdog, &bytes, &[]);
        let bytes = [0xF0, 0x81, stuffed, 0x81, 0x57, mode, 10, 0x0F];
        stands(mode, Command::GetStimulationMode, &bytes, &[]);
    }
}

/// "Other commands are given back as unknown with their number": ActualValues, whose bytes 7 to 12
/// are its data.
#[test]
fn another_command() {
    let bytes = [0xF0, 0x81, 0xAB, 0x81, 0x5D, 1, 60, 0, 0, 0, 0, 0, 0, 0x0F];
    assert_eq!(compose(1, 60, &[0; 6]), bytes);
    let other = Command::Other { number: 60 };
    let read = read(&bytes, 6);
    let data = vec![0; 6];
    assert_eq!(read, Reading { answer: 0, used: 14, packet: 1, command: Some(other), data });
    assert_eq!(write(1, other), None);
}
