//! The exports for frames.

/// The variables of an Init frame: a list of channels and its times.
#[derive(Clone, Copy, Debug, Default, PartialEq, Eq)]
#[repr(C)]
pub struct Init {
    /// N_Factor, 0 to 7: how many cycles a low frequency channel leaves out before each in which it
    /// pulses.
    pub factor: u8,
    /// Channel_Stim, not 0: the listed channels, from channel 1 in bit 0 to channel 8 in bit 7.
    pub stim: u8,
    /// Channel_Lf: the low frequency channels, in the same bits. A bit of a channel that is not
    /// listed is kept and has no effect.
    pub lf: u8,
    /// Group_Time, 3 to 29. From one pulse of a doublet or triplet to the next passes t2, which is 5
    /// times Group_Time plus 15, in tenths of a millisecond.
    pub group: u8,
    /// Main_Time, 4 to 2,045. A cycle takes t1, which is 5 times Main_Time plus 10, in tenths of a
    /// millisecond.
    pub main: u16,
}

/// One channel's variables of an Update frame.
#[derive(Clone, Copy, Debug, Default, PartialEq, Eq)]
#[repr(C)]
pub struct Setting {
    /// Pulse_Width in microseconds: 0, which releases nothing, or 10 to 500.
    pub width: u16,
    /// Mode: 0 a single pulse in each cycle, 1 a doublet, 2 a triplet.
    pub mode: u8,
    /// Pulse_Current in milliamps: 0, which releases nothing, to 127.
    pub current: u8,
}

/// What an Update frame is written from.
#[derive(Clone, Copy, Debug, Default, PartialEq, Eq)]
#[repr(C)]
pub struct Settings {
    /// The settings of the listed channels, lowest channel first, and zeros behind them.
    pub all: [Setting; 8],
}

/// The variables of a Single frame: one pulse.
#[derive(Clone, Copy, Debug, Default, PartialEq, Eq)]
#[repr(C)]
pub struct Single {
    /// Pulse_Width in microseconds: 0, which releases nothing, or 10 to 500.
    pub width: u16,
    /// Channel_Number, 0 to 7: 0 for channel 1. Pulses and the ring count channels from 1.
    pub channel: u8,
    /// Pulse_Current in milliamps: 0, which releases nothing, to 127.
    pub current: u8,
}

/// What a writer of frames or of packets reports.
#[derive(Clone, Copy, Debug, Default, PartialEq, Eq)]
#[repr(C)]
pub struct Wrote {
    /// Document 01's number: 0, or 4 or 16 if nothing was written.
    pub answer: u8,
    /// How many bytes of the output the frame has, 1 to 25, or the packet, 8 to 20; 0 if none was
    /// written.
    pub used: u8,
}

/// What the reader reports, with the fields of an Init frame.
#[derive(Clone, Copy, Debug, Default, PartialEq, Eq)]
#[repr(C)]
pub struct ReadInit {
    /// Document 01's number: 0, or 1 to 4 or 17 if no frame was read.
    pub answer: u8,
    /// The frame's Ident, 0 to 3, whichever command it is; 0 if none was read.
    pub ident: u8,
    /// How many bytes the frame has, 1 to 25; 0 if none was read.
    pub used: u16,
    /// The variables; zero if no Init was read.
    pub init: Init,
}

/// What the reader reports, with the fields of an Update frame.
#[derive(Clone, Copy, Debug, Default, PartialEq, Eq)]
#[repr(C)]
pub struct ReadUpdate {
    /// Document 01's number: 0, or 1 to 4 or 17 if no frame was read.
    pub answer: u8,
    /// The frame's Ident, 0 to 3, whichever command it is; 0 if none was read.
    pub ident: u8,
    /// How many bytes the frame has, 1 to 25; 0 if none was read.
    pub used: u16,
    /// The settings of the listed channels, lowest channel first, and zeros behind them; zero
    /// throughout if no Update was read.
    pub settings: [Setting; 8],
}

/// What the reader reports; a Stop frame has no fields.
#[derive(Clone, Copy, Debug, Default, PartialEq, Eq)]
#[repr(C)]
pub struct ReadStop {
    /// Document 01's number: 0, or 1 to 4 or 17 if no frame was read.
    pub answer: u8,
    /// The frame's Ident, 0 to 3, whichever command it is; 0 if none was read.
    pub ident: u8,
    /// How many bytes the frame has, 1 to 25; 0 if none was read.
    pub used: u16,
}

/// What the reader reports, with the fields of a Single frame.
#[derive(Clone, Copy, Debug, Default, PartialEq, Eq)]
#[repr(C)]
pub struct ReadSingle {
    /// Document 01's number: 0, or 1 to 4 or 17 if no frame was read.
    pub answer: u8,
    /// The frame's Ident, 0 to 3, whichever command it is; 0 if none was read.
    pub ident: u8,
    /// How many bytes the frame has, 1 to 25; 0 if none was read.
    pub used: u16,
    /// The variables; zero if no Single was read.
    pub single: Single,
}

extern "C" {
    pub(crate) fn yarrowbell_read_init(s: *const u8, s_length: usize, count: usize) -> ReadInit;
    pub(crate) fn yarrowbell_read_update(s: *const u8, s_length: usize, count: usize)
        -> ReadUpdate;
    pub(crate) fn yarrowbell_read_stop(s: *const u8, s_length: usize, count: usize) -> ReadStop;
    pub(crate) fn yarrowbell_read_single(s: *const u8, s_length: usize, count: usize)
        -> ReadSingle;
    pub(crate) fn yarrowbell_write_init(v: Init, out: *mut u8, out_length: usize) -> Wrote;
    pub(crate) fn yarrowbell_write_update(
        settings: Settings,
        count: usize,
        out: *mut u8,
        out_length: usize,
    ) -> Wrote;
    pub(crate) fn yarrowbell_write_stop(out: *mut u8, out_length: usize) -> Wrote;
    pub(crate) fn yarrowbell_write_single(v: Single, out: *mut u8, out_length: usize) -> Wrote;
    pub(crate) fn yarrowbell_reply(ident: u8, answer: u8) -> u8;
}
