//! The exports for ScienceMode2 packets (source 000).

use super::Wrote;

/// What the reader reports, with the values of whatever command was read: those that it does not have
/// are 0, and all are if no packet was read.
#[derive(Clone, Copy, Debug, Default, PartialEq, Eq)]
#[repr(C)]
pub struct ReadPacket {
    /// How many bytes were used, garbage before the start included, to the stop; 0 for answers 1 and
    /// 16.
    pub used: usize,
    /// Document 02's number: 0, or 1, 3, 4 or 16 if no packet was read.
    pub answer: u8,
    /// Packet number; 0 if no packet was read.
    pub packet: u8,
    /// The command's number, carried or not; 0 if no packet was read.
    pub command: u8,
    /// How many bytes of data were put to the output's start, 0 to 60; 0 if no packet was read.
    pub size: u8,
    /// Init: Version number.
    pub version: u8,
    /// UnknownCommand: Echo command byte.
    pub echo: u8,
    /// GetStimulationModeAck: Stimulation mode, 0 to 2; 0 if the result is not 0.
    pub mode: u8,
    /// An acknowledgement's Result, 0 to -8.
    pub result: i8,
    /// InitChannelListMode: Low frequency factor, 0 to 7.
    pub factor: u8,
    /// InitChannelListMode: Active channels, from channel 1 in bit 0 to channel 8 in bit 7.
    pub active: u8,
    /// InitChannelListMode: Active low frequency channels, in the same bits.
    pub lf: u8,
    /// InitChannelListMode: Inter pulse interval coded.
    pub inter: u8,
    /// InitChannelListMode: Main stimulation interval coded, 0 to 2,048.
    pub main: u16,
    /// InitChannelListMode: Channel execution, 0 or 1.
    pub execution: u16,
}

/// What the reader reports; a Watchdog and a GetStimulationMode have no values.
#[derive(Clone, Copy, Debug, Default, PartialEq, Eq)]
#[repr(C)]
pub struct ReadEmpty {
    /// How many bytes were used, as [`ReadPacket`] has it.
    pub used: usize,
    /// Document 02's number: 0, or 1, 3, 4 or 16 if no packet was read.
    pub answer: u16,
    /// Packet number; 0 if no packet was read.
    pub packet: u16,
    /// The command's number, whichever it is; 0 if no packet was read.
    pub command: u16,
    /// How many bytes of data were put to the output's start, 0 to 60; 0 if no packet was read.
    pub size: u16,
}

/// What the reader reports, with the value of an Init.
#[derive(Clone, Copy, Debug, Default, PartialEq, Eq)]
#[repr(C)]
pub struct ReadVersion {
    /// How many bytes were used, as [`ReadPacket`] has it.
    pub used: usize,
    /// Document 02's number: 0, or 1, 3, 4 or 16 if no packet was read.
    pub answer: u8,
    /// Packet number; 0 if no packet was read.
    pub packet: u8,
    /// The command's number, whichever it is; 0 if no packet was read.
    pub command: u8,
    /// How many bytes of data were put to the output's start, 0 to 60; 0 if no packet was read.
    pub size: u8,
    /// Version number; 0 if no Init was read.
    pub version: u32,
}

/// What the reader reports, with the value of an UnknownCommand.
#[derive(Clone, Copy, Debug, Default, PartialEq, Eq)]
#[repr(C)]
pub struct ReadEcho {
    /// How many bytes were used, as [`ReadPacket`] has it.
    pub used: usize,
    /// Document 02's number: 0, or 1, 3, 4 or 16 if no packet was read.
    pub answer: u8,
    /// Packet number; 0 if no packet was read.
    pub packet: u8,
    /// The command's number, whichever it is; 0 if no packet was read.
    pub command: u8,
    /// How many bytes of data were put to the output's start, 0 to 60; 0 if no packet was read.
    pub size: u8,
    /// Echo command byte; 0 if no UnknownCommand was read.
    pub echo: u32,
}

/// What the reader reports, with the value of an InitAck or of an InitChannelListModeAck.
#[derive(Clone, Copy, Debug, Default, PartialEq, Eq)]
#[repr(C)]
pub struct ReadResult {
    /// How many bytes were used, as [`ReadPacket`] has it.
    pub used: usize,
    /// Document 02's number: 0, or 1, 3, 4 or 16 if no packet was read.
    pub answer: u16,
    /// Packet number; 0 if no packet was read.
    pub packet: u16,
    /// The command's number, whichever it is; 0 if no packet was read.
    pub command: u16,
    /// How many bytes of data were put to the output's start, 0 to 60; 0 if no packet was read.
    pub size: u8,
    /// Result, 0 to -8; 0 if another command was read, or none.
    pub result: i8,
}

/// What the reader reports, with the values of a GetStimulationModeAck.
#[derive(Clone, Copy, Debug, Default, PartialEq, Eq)]
#[repr(C)]
pub struct ReadMode {
    /// How many bytes were used, as [`ReadPacket`] has it.
    pub used: usize,
    /// Document 02's number: 0, or 1, 3, 4 or 16 if no packet was read.
    pub answer: u8,
    /// Packet number; 0 if no packet was read.
    pub packet: u8,
    /// The command's number, whichever it is; 0 if no packet was read.
    pub command: u16,
    /// How many bytes of data were put to the output's start, 0 to 60; 0 if no packet was read.
    pub size: u16,
    /// Result, 0 to -8; 0 if another command was read, or none.
    pub result: i8,
    /// Stimulation mode, 0 to 2; 0 if the result is not 0, and if another command was read, or none.
    pub mode: u8,
}

/// What the reader reports, with the values of an InitChannelListMode, which are 0 if another command
/// was read, or none.
#[derive(Clone, Copy, Debug, Default, PartialEq, Eq)]
#[repr(C)]
pub struct ReadList {
    /// How many bytes were used, as [`ReadPacket`] has it.
    pub used: usize,
    /// Document 02's number: 0, or 1, 3, 4 or 16 if no packet was read.
    pub answer: u8,
    /// Packet number; 0 if no packet was read.
    pub packet: u8,
    /// The command's number, whichever it is; 0 if no packet was read.
    pub command: u8,
    /// How many bytes of data were put to the output's start, 0 to 60; 0 if no packet was read.
    pub size: u8,
    /// Low frequency factor, 0 to 7.
    pub factor: u8,
    /// Active channels, from channel 1 in bit 0 to channel 8 in bit 7.
    pub active: u8,
    /// Active low frequency channels, in the same bits.
    pub lf: u8,
    /// Inter pulse interval coded.
    pub inter: u8,
    /// Main stimulation interval coded, 0 to 2,048.
    pub main: u32,
    /// Channel execution, 0 or 1.
    pub execution: u32,
}

extern "C" {
    pub(crate) fn yarrowbell_rehastim2_read(
        s: *const u8,
        s_length: usize,
        out: *mut u8,
        out_length: usize,
    ) -> ReadPacket;
    pub(crate) fn yarrowbell_rehastim2_read_init(
        s: *const u8,
        s_length: usize,
        out: *mut u8,
        out_length: usize,
    ) -> ReadVersion;
    pub(crate) fn yarrowbell_rehastim2_read_init_ack(
        s: *const u8,
        s_length: usize,
        out: *mut u8,
        out_length: usize,
    ) -> ReadResult;
    pub(crate) fn yarrowbell_rehastim2_read_unknown_command(
        s: *const u8,
        s_length: usize,
        out: *mut u8,
        out_length: usize,
    ) -> ReadEcho;
    pub(crate) fn yarrowbell_rehastim2_read_watchdog(
        s: *const u8,
        s_length: usize,
        out: *mut u8,
        out_length: usize,
    ) -> ReadEmpty;
    pub(crate) fn yarrowbell_rehastim2_read_get_stimulation_mode(
        s: *const u8,
        s_length: usize,
        out: *mut u8,
        out_length: usize,
    ) -> ReadEmpty;
    pub(crate) fn yarrowbell_rehastim2_read_get_stimulation_mode_ack(
        s: *const u8,
        s_length: usize,
        out: *mut u8,
        out_length: usize,
    ) -> ReadMode;
    pub(crate) fn yarrowbell_rehastim2_read_init_channel_list_mode(
        s: *const u8,
        s_length: usize,
        out: *mut u8,
        out_length: usize,
    ) -> ReadList;
    pub(crate) fn yarrowbell_rehastim2_read_init_channel_list_mode_ack(
        s: *const u8,
        s_length: usize,
        out: *mut u8,
        out_length: usize,
    ) -> ReadResult;
    pub(crate) fn yarrowbell_rehastim2_write_init(
        packet: u8,
        version: u8,
        out: *mut u8,
        out_length: usize,
    ) -> Wrote;
    pub(crate) fn yarrowbell_rehastim2_write_init_ack(
        packet: u8,
        res: i8,
        out: *mut u8,
        out_length: usize,
    ) -> Wrote;
    pub(crate) fn yarrowbell_rehastim2_write_unknown_command(
        packet: u8,
        echo: u8,
        out: *mut u8,
        out_length: usize,
    ) -> Wrote;
    pub(crate) fn yarrowbell_rehastim2_write_watchdog(
        packet: u8,
        out: *mut u8,
        out_length: usize,
    ) -> Wrote;
    pub(crate) fn yarrowbell_rehastim2_write_get_stimulation_mode(
        packet: u8,
        out: *mut u8,
        out_length: usize,
    ) -> Wrote;
    pub(crate) fn yarrowbell_rehastim2_write_get_stimulation_mode_ack(
        packet: u8,
        res: i8,
        mode: u8,
        out: *mut u8,
        out_length: usize,
    ) -> Wrote;
    pub(crate) fn yarrowbell_rehastim2_write_init_channel_list_mode(
        packet: u8,
        factor: u8,
        active: u8,
        lf: u8,
        inter: u8,
        main: u16,
        execution: u8,
        out: *mut u8,
        out_length: usize,
    ) -> Wrote;
    pub(crate) fn yarrowbell_rehastim2_write_init_channel_list_mode_ack(
        packet: u8,
        res: i8,
        out: *mut u8,
        out_length: usize,
    ) -> Wrote;
}
