//! Each reading export on packets of every kind, without the help of the independent codec.

use yarrowbell::calls::rehastim2::*;
use yarrowbell::raw::rehastim2::{
    ReadEcho, ReadEmpty, ReadList, ReadMode, ReadPacket, ReadResult, ReadVersion,
};

/// A packet of each command, its number and how much data it has.
const PACKETS: [(&[u8], u8, u8); 9] = [
    (&[0xF0, 0x81, 0x47, 0x81, 0x56, 0, 1, 1, 0x0F], 1, 1),
    (&[0xF0, 0x81, 0x86, 0x81, 0x56, 7, 2, 0xFB, 0x0F], 2, 1),
    (&[0xF0, 0x81, 0x77, 0x81, 0x51, 5, 3, 0x81, 0xA5, 0x0F], 3, 1),
    (&[0xF0, 0x81, 0x49, 0x81, 0x57, 0, 4, 0x0F], 4, 0),
    (&[0xF0, 0x81, 0x76, 0x81, 0x57, 1, 10, 0x0F], 10, 0),
    (&[0xF0, 0x81, 0x11, 0x81, 0x51, 9, 11, 0, 2, 0x0F], 11, 2),
    (LIST, 30, 7),
    (&[0xF0, 0x81, 0x88, 0x81, 0x56, 3, 31, 0xFE, 0x0F], 31, 1),
    (&[0xF0, 0x81, 0xAB, 0x81, 0x5D, 1, 60, 0, 0, 0, 0, 0, 0, 0x0F], 60, 6),
];

const LIST: &[u8] =
    &[0xF0, 0x81, 0x42, 0x81, 0x5E, 2, 30, 7, 0xFF, 0x81, 0xD4, 0x81, 0x5A, 8, 0, 1, 0x0F];

#[test]
fn values_of_its_own_kind_alone() {
    for (bytes, command, size) in PACKETS {
        let own = |number, value: i8| if command == number { value } else { 0 };
        let (used, answer, out) = (bytes.len(), 0, &mut [0; 60][..]);
        let packet = if bytes[5] == 0x81 { bytes[6] ^ 0x55 } else { bytes[5] };
        let version = own(1, 1) as u32;
        let read = read_init(bytes, out);
        assert_eq!(read, ReadVersion { used, answer, packet, command, size, version });
        let with_result = |result| ReadResult {
            used,
            answer: 0,
            packet: packet.into(),
            command: command.into(),
            size,
            result,
        };
        assert_eq!(read_init_ack(bytes, out), with_result(own(2, -5)));
        let echo = if command == 3 { 0xF0 } else { 0 };
        let read = read_unknown_command(bytes, out);
        assert_eq!(read, ReadEcho { used, answer, packet, command, size, echo });
        let mode = ReadMode {
            used,
            answer,
            packet,
            command: command.into(),
            size: size.into(),
            result: 0,
            mode: own(11, 2) as u8,
        };
        assert_eq!(read_get_stimulation_mode_ack(bytes, out), mode);
        assert_eq!(read_init_channel_list_mode_ack(bytes, out), with_result(own(31, -2)));

        let [packet, command, size] = [packet, command, size].map(u16::from);
        let empty = ReadEmpty { used, answer: 0, packet, command, size };
        assert_eq!([read_watchdog(bytes, out), read_get_stimulation_mode(bytes, out)], [empty; 2]);
    }
}

#[test]
fn values_of_a_channel_list() {
    for (bytes, command, size) in PACKETS {
        let (used, answer, out) = (bytes.len(), 0, &mut [0; 60][..]);
        let read = read_init_channel_list_mode(bytes, out);
        let none =
            ReadList { used, answer, packet: read.packet, command, size, ..Default::default() };
        let list = ReadList {
            packet: 2,
            factor: 7,
            active: 0xFF,
            lf: 0x81,
            inter: 0x0F,
            main: 2048,
            execution: 1,
            ..none
        };
        assert_eq!(read, if command == 30 { list } else { none });
    }
}

/// All of them at once, and the data.
#[test]
fn any_command() {
    for (bytes, command, size) in PACKETS {
        let mut out = [0xAA; 60];
        let found = read(bytes, &mut out);
        let packet = if bytes[5] == 0x81 { bytes[6] ^ 0x55 } else { bytes[5] };
        let none = ReadPacket { used: bytes.len(), packet, command, size, ..ReadPacket::default() };
        let (expected, data): (ReadPacket, &[u8]) = match command {
            1 => (ReadPacket { version: 1, ..none }, &[1]),
            2 => (ReadPacket { result: -5, ..none }, &[0xFB]),
            3 => (ReadPacket { echo: 0xF0, ..none }, &[0xF0]),
            11 => (ReadPacket { mode: 2, ..none }, &[0, 2]),
            30 => {
                let list = ReadPacket { factor: 7, active: 0xFF, lf: 0x81, inter: 0x0F, ..none };
                let list = ReadPacket { main: 2048, execution: 1, ..list };
                (list, &[7, 0xFF, 0x81, 0x0F, 8, 0, 1])
            }
            31 => (ReadPacket { result: -2, ..none }, &[0xFE]),
            60 => (none, &[0; 6]),
            _ => (none, &[]),
        };
        assert_eq!(found, expected);
        assert_eq!(&out[..usize::from(size)], data);
        assert!(out[usize::from(size)..].iter().all(|&byte| byte == 0xAA));
    }
}

#[test]
fn zeros_on_a_refusal() {
    let refused: [(u16, &[u8], usize, usize); 6] = [
        (1, &[], 0, 60),
        (1, &LIST[..16], 0, 60),
        (3, &[0xF0, 0x0F], 2, 60),
        (3, &[0x33, 0xF0, 0x81, 0x48, 0x81, 0x57, 0, 4, 0x0F, 0x33], 9, 60),
        (4, &[0x33, 0xF0, 0x81, 0x49, 0x81, 0x56, 0, 4, 0x0F, 0x33], 9, 0),
        (16, LIST, 0, 6),
    ];
    for (answer, bytes, used, room) in refused {
        let out = &mut [0xAA; 60][..room];
        let empty = ReadEmpty { used, answer, ..ReadEmpty::default() };
        assert_eq!([read_watchdog(bytes, out), read_get_stimulation_mode(bytes, out)], [empty; 2]);
        let result = ReadResult { used, answer, ..Default::default() };
        assert_eq!(read_init_ack(bytes, out), result);
        assert_eq!(read_init_channel_list_mode_ack(bytes, out), result);
        let answer = answer as u8;
        assert_eq!(read(bytes, out), ReadPacket { used, answer, ..Default::default() });
        assert_eq!(read_init(bytes, out), ReadVersion { used, answer, ..Default::default() });
        let echo = ReadEcho { used, answer, ..Default::default() };
        assert_eq!(read_unknown_command(bytes, out), echo);
        let mode = ReadMode { used, answer, ..Default::default() };
        assert_eq!(read_get_stimulation_mode_ack(bytes, out), mode);
        let list = ReadList { used, answer, ..Default::default() };
        assert_eq!(read_init_channel_list_mode(bytes, out), list);
        assert!(out.iter().all(|&byte| byte == 0xAA));
    }
}
