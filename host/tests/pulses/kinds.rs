//! Each reading export on packets of every kind, without the help of the independent codec.

use yarrowbell::calls::rehamove3::*;
use yarrowbell::raw::rehamove3::{
    Point, ReadConfig, ReadElectrode, ReadEmpty, ReadPacket, ReadResult, ReadVoltage,
};

/// A packet of each command, its packet number, its command's number and how much data it has.
const PACKETS: [(&[u8], u8, u16, u16); 7] = [
    (&[0xF0, 0x81, 0x55, 0x81, 0x58, 0x81, 0x02, 0x81, 0xEA, 0xFC, 0, 12, 0x0F], 63, 0, 1),
    (&[0xF0, 0x81, 0x55, 0x81, 0x58, 0x81, 0x41, 0x81, 0x3C, 0xFC, 1, 11, 0x0F], 63, 1, 1),
    (CONFIG, 5, 2, 9),
    (&[0xF0, 0x81, 0x55, 0x81, 0x5B, 0x81, 0x19, 0x81, 0x5C, 4, 3, 10, 3, 0x0F], 1, 3, 2),
    (&[0xF0, 0x81, 0x55, 0x81, 0x59, 0x81, 0x9C, 0x81, 0x78, 8, 4, 0x0F], 2, 4, 0),
    (&[0xF0, 0x81, 0x55, 0x81, 0x58, 0x81, 0x13, 0x81, 0x20, 8, 5, 1, 0x0F], 2, 5, 1),
    (
        &[0xF0, 0x81, 0x55, 0x81, 0x47, 0x81, 0x51, 0x81, 0xDE, 4, 60, 0, 0, 0, 0, 0, 0, 0x0F],
        1,
        60,
        6,
    ),
];

/// 4,095 µs of 130 mA and 1 µs of -130 mA, on channel 2, executed.
const CONFIG: &[u8] = &[
    0xF0, 0x81, 0x55, 0x81, 0x40, 0x81, 0x4C, 0x81, 0xBA, 20, 2, 0xC1, 0xFF, 0xF8, 0xC0, 0, 0, 16,
    0xA0, 0, 0x0F,
];
const CHARGE: i32 = 4_095 * 260 - 260;

/// The points of that pulse.
fn points() -> [Point; 16] {
    let mut points = [Point::default(); 16];
    points[0] = Point { duration: 4_095, code: 560 };
    points[1] = Point { duration: 1, code: 40 };
    points
}

#[test]
fn values_of_its_own_kind_alone() {
    for (bytes, packet, command, size) in PACKETS {
        let own = |number, value| if command == number { value } else { 0 };
        let (used, answer, out) = (bytes.len(), 0, &mut [0; 60][..]);
        let voltage = own(0, 6);
        let read = read_ll_init(bytes, out);
        assert_eq!(read, ReadVoltage { used, answer, packet, command, size, voltage });
        let with_result = |result| ReadResult { used, answer, packet, command, size, result };
        assert_eq!(read_ll_init_ack(bytes, out), with_result(own(1, 11)));
        assert_eq!(read_ll_stop_ack(bytes, out), with_result(own(5, 1)));
        let (result, electrode) = (own(3, 10) as u8, own(3, 3) as u8);
        let ack = ReadElectrode { used, answer, packet, command, size, result, electrode };
        assert_eq!(read_ll_channel_config_ack(bytes, out), ack);
        let empty = ReadEmpty { used, answer: 0, packet: packet.into(), command, size };
        assert_eq!(read_ll_stop(bytes, out), empty);
        let none = ReadConfig { used, command, size, packet, ..ReadConfig::default() };
        let config = ReadConfig {
            charge: CHARGE,
            execution: 1,
            channel: 2,
            number: 2,
            points: points(),
            ..none
        };
        let read = read_ll_channel_config(bytes, out);
        assert_eq!(read, if command == 2 { config } else { none });
    }
}

/// All of them at once, and the data.
#[test]
fn any_command() {
    for (bytes, packet, command, size) in PACKETS {
        let mut out = [0xAA; 60];
        let found = read(bytes, &mut out);
        let none = ReadPacket { used: bytes.len(), packet, command, size, ..ReadPacket::default() };
        let (expected, data): (ReadPacket, &[u8]) = match command {
            0 => (ReadPacket { voltage: 6, ..none }, &[12]),
            1 => (ReadPacket { result: 11, ..none }, &[11]),
            2 => {
                let (charge, points) = (CHARGE, points());
                let config = ReadPacket { charge, execution: 1, channel: 2, number: 2, ..none };
                let data = &[0xC1, 0xFF, 0xF8, 0xC0, 0, 0, 16, 0xA0, 0];
                (ReadPacket { points, ..config }, data)
            }
            3 => (ReadPacket { result: 10, electrode: 3, ..none }, &[10, 3]),
            5 => (ReadPacket { result: 1, ..none }, &[1]),
            60 => (none, &[0; 6]),
            _ => (none, &[]),
        };
        assert_eq!(found, expected);
        assert_eq!(&out[..usize::from(size)], data);
        assert!(out[usize::from(size)..].iter().all(|&byte| byte == 0xAA));
    }
}

#[test]
fn zeros_on_a_refusal() {
    let mut wrong = CONFIG.to_vec();
    wrong[19] = 1;
    let mut other_length = CONFIG.to_vec();
    other_length[4] = 0x41;
    let refused: [(u8, &[u8], usize, usize); 6] = [
        (1, &[], 0, 60),
        (1, &CONFIG[..CONFIG.len() - 1], 0, 60),
        (3, &[0xF0, 0x0F], 2, 60),
        (3, &[&[0x33], &wrong[..], &[0x33]].concat(), 22, 60),
        (4, &[&[0x33], &other_length[..], &[0x33]].concat(), 22, 0),
        (16, CONFIG, 0, 8),
    ];
    for (answer, bytes, used, room) in refused {
        let out = &mut [0xAA; 60][..room];
        assert_eq!(read(bytes, out), ReadPacket { used, answer, ..Default::default() });
        assert_eq!(read_ll_init(bytes, out), ReadVoltage { used, answer, ..Default::default() });
        let result = ReadResult { used, answer, ..Default::default() };
        assert_eq!([read_ll_init_ack(bytes, out), read_ll_stop_ack(bytes, out)], [result; 2]);
        let config = ReadConfig { used, answer, ..Default::default() };
        assert_eq!(read_ll_channel_config(bytes, out), config);
        let electrode = ReadElectrode { used, answer, ..Default::default() };
        assert_eq!(read_ll_channel_config_ack(bytes, out), electrode);
        let empty = ReadEmpty { used, answer: answer.into(), ..Default::default() };
        assert_eq!(read_ll_stop(bytes, out), empty);
        assert!(out.iter().all(|&byte| byte == 0xAA));
    }
}
