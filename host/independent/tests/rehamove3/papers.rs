//! The example packets of section 7.

use independent::rehamove3::{compose, read, write, ChannelConfig, Command, Point, Pulse, Reading};

/// Section 7.1.
const LL_INIT: [u8; 13] =
    [0xF0, 0x81, 0x55, 0x81, 0x58, 0x81, 0x55, 0x81, 0x55, 0x00, 0x00, 0x00, 0x0F];
const LL_CHANNEL_CONFIG: [u8; 27] = [
    0xF0, 0x81, 0x55, 0x81, 0x4E, 0x81, 0xD3, 0x81, 0xAF, 0x04, 0x02, 0x82, 0x81, 0x5A, 0xA5, 0x50,
    0x00, 0x06, 0x44, 0xB0, 0x00, 0x81, 0x5A, 0xA4, 0x10, 0x00, 0x0F,
];
const LL_STOP: [u8; 12] = [0xF0, 0x81, 0x55, 0x81, 0x59, 0x81, 0x9C, 0x81, 0x78, 0x08, 0x04, 0x0F];

/// Section 7.2.
const ML_INIT: [u8; 13] =
    [0xF0, 0x81, 0x55, 0x81, 0x58, 0x81, 0x75, 0x81, 0x29, 0x00, 0x1E, 0x00, 0x0F];
const ML_UPDATE: [u8; 43] = [
    0xF0, 0x81, 0x55, 0x81, 0x7E, 0x81, 0x5D, 0x81, 0x42, 0x04, 0x20, 0x03, 0x23, 0x00, 0x50, 0x0C,
    0x85, 0x50, 0x00, 0x06, 0x44, 0xB0, 0x00, 0x0C, 0x84, 0x10, 0x00, 0x23, 0x00, 0x28, 0x06, 0x45,
    0x00, 0x00, 0x06, 0x44, 0xB0, 0x00, 0x06, 0x44, 0x60, 0x00, 0x0F,
];
const ML_GET_CURRENT_DATA: [u8; 13] =
    [0xF0, 0x81, 0x55, 0x81, 0x58, 0x81, 0x16, 0x81, 0x94, 0x08, 0x24, 0x02, 0x0F];
const ML_STOP: [u8; 12] = [0xF0, 0x81, 0x55, 0x81, 0x59, 0x81, 0x14, 0x81, 0x18, 0x0C, 0x22, 0x0F];

pub const EXAMPLES: [&[u8]; 7] =
    [&LL_INIT, &LL_CHANNEL_CONFIG, &LL_STOP, &ML_INIT, &ML_UPDATE, &ML_GET_CURRENT_DATA, &ML_STOP];

/// A command and its packet, each made from the other.
fn stands(packet: u8, command: Command, bytes: &[u8], data: &[u8]) {
    assert_eq!(write(packet, command).as_deref(), Some(bytes), "{command:?}");
    assert_eq!(compose(packet, command.number(), data), bytes);
    shows(packet, command, bytes, data);
}

/// The packet is read as this command, without a net charge.
fn shows(packet: u8, command: Command, bytes: &[u8], data: &[u8]) {
    let (used, command, data) = (bytes.len(), Some(command), data.to_vec());
    let reading = Reading { answer: 0, used, packet, command, charge: 0, data };
    assert_eq!(read(bytes, reading.data.len()), reading);
}

/// Another command: read, and not written.
fn other(packet: u8, number: u16, bytes: &[u8], data: &[u8]) {
    let command = Command::Other { number };
    assert_eq!(compose(packet, number, data), bytes);
    shows(packet, command, bytes, data);
    assert_eq!(write(packet, command), None);
}

#[test]
fn ll_init() {
    stands(0, Command::LlInit { voltage: 0 }, &LL_INIT, &[0]);
}

/// "250 µs, 20 mA", "100 µs, 0 mA", "250 µs, -20 mA" on the red channel.
#[test]
fn ll_channel_config() {
    let points = [(250, 340), (100, 300), (250, 260)];
    let pulse = Pulse::of_points(&points.map(|(duration, code)| Point { duration, code }));
    let config = ChannelConfig { execution: 1, channel: 0, pulse };
    let data = [0x82, 0x0F, 0xA5, 0x50, 0x00, 0x06, 0x44, 0xB0, 0x00, 0x0F, 0xA4, 0x10, 0x00];
    stands(1, Command::LlChannelConfig(config), &LL_CHANNEL_CONFIG, &data);
}

#[test]
fn ll_stop() {
    stands(2, Command::LlStop, &LL_STOP, &[]);
}

/// "Other commands are given back as unknown with their number."
#[test]
fn the_mid_level() {
    other(0, 30, &ML_INIT, &[0]);
    other(1, 32, &ML_UPDATE, &ML_UPDATE[11..42]);
    other(2, 36, &ML_GET_CURRENT_DATA, &[2]);
    other(3, 34, &ML_STOP, &[]);
}
