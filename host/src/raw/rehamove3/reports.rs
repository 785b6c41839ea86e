//! What the readers report.

use super::Point;

/// What the reader reports, with the values of whatever command was read: those that it does not have
/// are 0, and all are if no packet was read.
#[derive(Clone, Copy, Debug, Default, PartialEq, Eq)]
#[repr(C)]
pub struct ReadPacket {
    /// How many bytes were used, garbage before the start included, to the stop; 0 for answers 1 and
    /// 16.
    pub used: usize,
    /// Ll_channel_config: net charge in half milliamp microseconds.
    pub charge: i32,
    /// The command's number, carried or not, 0 to 1,023; 0 if no packet was read.
    pub command: u16,
    /// How many bytes of data were put to the output's start, 0 to 1,188; 0 if no packet was read.
    pub size: u16,
    /// Document 02's number: 0, or 1, 3, 4 or 16 if no packet was read.
    pub answer: u8,
    /// Packet number, 0 to 63; 0 if no packet was read.
    pub packet: u8,
    /// Ll_init: High Voltage, 0 to 6.
    pub voltage: u8,
    /// An acknowledgement's Result: 0, 1, 2, 4, 7, 10 or 11.
    pub result: u8,
    /// Ll_channel_config_ack: Electrode error channel, 0 to 3 if the result is 10.
    pub electrode: u8,
    /// Ll_channel_config: Execution Stimulation, 0 or 1.
    pub execution: u8,
    /// Ll_channel_config: Channel selection, 0 to 3.
    pub channel: u8,
    /// Ll_channel_config: Number of points, 1 to 16.
    pub number: u8,
    /// Ll_channel_config: the points, and zeros behind them.
    pub points: [Point; 16],
}

/// What the reader reports; an Ll_stop has no values.
#[derive(Clone, Copy, Debug, Default, PartialEq, Eq)]
#[repr(C)]
pub struct ReadEmpty {
    /// How many bytes were used, as [`ReadPacket`] has it.
    pub used: usize,
    /// Document 02's number: 0, or 1, 3, 4 or 16 if no packet was read.
    pub answer: u16,
    /// Packet number; 0 if no packet was read.
    pub packet: u16,
    /// The command's number, whichever it is; 0 if no packet was read.
    pub command: u16,
    /// How many bytes of data were put to the output's start; 0 if no packet was read.
    pub size: u16,
}

/// What the reader reports, with the value of an Ll_init.
#[derive(Clone, Copy, Debug, Default, PartialEq, Eq)]
#[repr(C)]
pub struct ReadVoltage {
    /// How many bytes were used, as [`ReadPacket`] has it.
    pub used: usize,
    /// Document 02's number: 0, or 1, 3, 4 or 16 if no packet was read.
    pub answer: u8,
    /// Packet number; 0 if no packet was read.
    pub packet: u8,
    /// The command's number, whichever it is; 0 if no packet was read.
    pub command: u16,
    /// How many bytes of data were put to the output's start; 0 if no packet was read.
    pub size: u16,
    /// High Voltage, 0 to 6; 0 if no Ll_init was read.
    pub voltage: u16,
}

/// What the reader reports, with the value of an Ll_init_ack or of an Ll_stop_ack.
#[derive(Clone, Copy, Debug, Default, PartialEq, Eq)]
#[repr(C)]
pub struct ReadResult {
    /// How many bytes were used, as [`ReadPacket`] has it.
    pub used: usize,
    /// Document 02's number: 0, or 1, 3, 4 or 16 if no packet was read.
    pub answer: u8,
    /// Packet number; 0 if no packet was read.
    pub packet: u8,
    /// The command's number, whichever it is; 0 if no packet was read.
    pub command: u16,
    /// How many bytes of data were put to the output's start; 0 if no packet was read.
    pub size: u16,
    /// Result; 0 if another command was read, or none.
    pub result: u16,
}

/// What the reader reports, with the values of an Ll_channel_config_ack, which are 0 if another command
/// was read, or none.
#[derive(Clone, Copy, Debug, Default, PartialEq, Eq)]
#[repr(C)]
pub struct ReadElectrode {
    /// How many bytes were used, as [`ReadPacket`] has it.
    pub used: usize,
    /// Document 02's number: 0, or 1, 3, 4 or 16 if no packet was read.
    pub answer: u8,
    /// Packet number; 0 if no packet was read.
    pub packet: u8,
    /// The command's number, whichever it is; 0 if no packet was read.
    pub command: u16,
    /// How many bytes of data were put to the output's start; 0 if no packet was read.
    pub size: u16,
    /// Result.
    pub result: u8,
    /// Electrode error channel, 0 to 3 if the result is 10.
    pub electrode: u8,
}

/// What the reader reports, with the values of an Ll_channel_config, which are 0 if another command was
/// read, or none.
#[derive(Clone, Copy, Debug, Default, PartialEq, Eq)]
#[repr(C)]
pub struct ReadConfig {
    /// How many bytes were used, as [`ReadPacket`] has it.
    pub used: usize,
    /// Net charge in half milliamp microseconds.
    pub charge: i32,
    /// The command's number, whichever it is; 0 if no packet was read.
    pub command: u16,
    /// How many bytes of data were put to the output's start; 0 if no packet was read.
    pub size: u16,
    /// Document 02's number: 0, or 1, 3, 4 or 16 if no packet was read.
    pub answer: u8,
    /// Packet number; 0 if no packet was read.
    pub packet: u8,
    /// Execution Stimulation, 0 or 1.
    pub execution: u8,
    /// Channel selection, 0 to 3.
    pub channel: u8,
    /// Number of points, 1 to 16.
    pub number: u32,
    /// The points, and zeros behind them.
    pub points: [Point; 16],
}
