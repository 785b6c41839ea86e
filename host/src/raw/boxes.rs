//! The exports for a box: its record, its ring in a part of lent memory, and what a call says.

use super::{Init, Part, Readout, Ring, Setting};

/// The limits that a box keeps to. A profile is good if each of its numbers is in its range, as in
/// [`Profile::LOOSEST`]; the default, all zero, is not.
#[derive(Clone, Copy, Debug, Default, PartialEq, Eq)]
#[repr(C)]
pub struct Profile {
    /// The largest current of each channel in milliamps, channel 1 first: 0 to 127.
    pub currents: [u8; 8],
    /// The largest width of each channel in microseconds, channel 1 first: 0 to 500.
    pub widths: [u16; 8],
    /// The largest charge of a pulse, its current times its width, in nanocoulombs: 0 to 63,500.
    pub charge: u32,
    /// The shortest t1 that an Init may ask for, in tenths of a millisecond: 30 to 10,235.
    pub shortest: u32,
    /// How long a list may run on without a frame with a right check before the box trips, in tenths
    /// of a millisecond: 1 to 600,000.
    pub watchdog: u32,
}

/// The list that runs, all zero while none does. A channel's settings stand at its number less 1.
#[derive(Clone, Copy, Debug, Default, PartialEq, Eq)]
#[repr(C)]
pub struct Run {
    /// The Init that began it.
    pub list: Init,
    /// How far its cycle has come, in tenths of a millisecond: below t1.
    pub position: u16,
    /// How many cycles are over: not more than the clock.
    pub cycle: u32,
    /// The watchdog count, in tenths of a millisecond since the last frame with a right check: below
    /// the profile's watchdog.
    pub watch: u32,
    /// 1 while an update waits, else 0.
    pub waits: u32,
    /// The settings that rule, zero for a channel that is not listed.
    pub settings: [Setting; 8],
    /// Those that will rule from the next position 0 on, zero throughout while no update waits.
    pub waiting: [Setting; 8],
}

/// The machine of document 01 without its clock and its partial frame.
#[derive(Clone, Copy, Debug, Default, PartialEq, Eq)]
#[repr(C)]
pub struct Core {
    /// What is left of module A's hold, in tenths of a millisecond: 0 to 15. Until it is 0 a Single
    /// on channels 1 to 4 is refused.
    pub holda: u8,
    /// The same of module B, channels 5 to 8.
    pub holdb: u8,
    /// 0 idle, 1 running, 2 tripped.
    pub state: u16,
    /// The list, if one runs.
    pub run: Run,
}

/// A frame that is not finished.
#[derive(Clone, Copy, Debug, Default, PartialEq, Eq)]
#[repr(C)]
pub struct PartialFrame {
    /// The bytes so far, a high one and then low ones, and zeros behind them.
    pub bytes: [u8; 25],
    /// How many bytes the whole frame has, 4 to 25; 0 while no frame is open.
    pub kept: u8,
    /// How many have come, fewer than the whole frame has; 0 while no frame is open.
    pub len: u16,
}

/// All that a box keeps, but for its ring's bytes.
#[derive(Clone, Copy, Debug, Default, PartialEq, Eq)]
#[repr(C)]
pub struct BoxRecord {
    /// The limits that it was made with.
    pub profile: Profile,
    /// How many ticks it has taken, each a tenth of a millisecond: 0 to 4,294,967,295.
    pub clock: u32,
    /// Its state, its holds and its list.
    pub core: Core,
    /// The frame that is open.
    pub partial: PartialFrame,
    /// Where its trace lies in the ring's part.
    pub ring: Ring,
}

/// A pulse released in a call, all zero where there is none.
#[derive(Clone, Copy, Debug, Default, PartialEq, Eq)]
#[repr(C)]
pub struct Released {
    /// When it was released, in tenths of a millisecond.
    pub clock: u32,
    /// How long it lasts, in microseconds: 10 to 500.
    pub width: u16,
    /// On which channel: 1 to 8.
    pub channel: u8,
    /// How strong it is, in milliamps: 1 to 127.
    pub current: u8,
}

/// What a call says.
#[derive(Clone, Copy, Debug, Default, PartialEq, Eq)]
#[repr(C)]
pub struct Said {
    /// Document 01's number: 0 to 10, or 12 to 15 on a refusal.
    pub answer: u16,
    /// The byte to send back; 0 if no command was decided.
    pub reply: u16,
    /// The pulse of module A, channels 1 to 4.
    pub a: Released,
    /// The pulse of module B, channels 5 to 8.
    pub b: Released,
}

/// What a making reports.
#[derive(Clone, Copy, Debug, Default, PartialEq, Eq)]
#[repr(C)]
pub struct Made {
    /// Document 01's number: 0, or 11 or 13 if no box was made.
    pub answer: u32,
    /// The box; all zero, and so not good, if none was made.
    pub made: BoxRecord,
}

/// What a call says, with the box that it leaves.
#[derive(Clone, Copy, Debug, Default, PartialEq, Eq)]
#[repr(C)]
pub struct Called {
    /// The answer, and what came of the call.
    pub said: Said,
    /// The box for the next call; on a refusal the one that the call was given.
    pub next: BoxRecord,
}

extern "C" {
    pub(crate) fn yarrowbell_make(profile: Profile, capacity: u32) -> Made;
    pub(crate) fn yarrowbell_byte(
        b: BoxRecord,
        buf: *mut u8,
        buf_length: usize,
        at: Part,
        n: u8,
    ) -> Called;
    pub(crate) fn yarrowbell_tick(
        b: BoxRecord,
        buf: *mut u8,
        buf_length: usize,
        at: Part,
    ) -> Called;
    pub(crate) fn yarrowbell_byte_in_place(
        b: *mut BoxRecord,
        buf: *mut u8,
        buf_length: usize,
        at: Part,
        n: u8,
    ) -> Said;
    pub(crate) fn yarrowbell_tick_in_place(
        b: *mut BoxRecord,
        buf: *mut u8,
        buf_length: usize,
        at: Part,
    ) -> Said;
    pub(crate) fn yarrowbell_readout(
        b: BoxRecord,
        buf: *const u8,
        buf_length: usize,
        at: Part,
        out: *mut u8,
        out_length: usize,
    ) -> Readout;
}
