//! A pulse by value.

/// A point of a pulse.
#[derive(Clone, Copy, Debug, Default, PartialEq, Eq)]
#[repr(C)]
pub struct Point {
    /// Duration in microseconds, 0 to 4,095.
    pub duration: u16,
    /// Current coded, 40 to 560: half milliamps plus 300.
    pub code: u16,
}

/// What an Ll_channel_config is written from, and what is weighed.
#[derive(Clone, Copy, Debug, Default, PartialEq, Eq)]
#[repr(C)]
pub struct Pulse {
    /// Number of points, 1 to 16.
    pub number: u16,
    /// The points, and zeros behind them.
    pub points: [Point; 16],
}

/// The net charge of a pulse.
#[derive(Clone, Copy, Debug, Default, PartialEq, Eq)]
#[repr(C)]
pub struct Weighed {
    /// The sum over the points of duration times current, in half milliamp microseconds; 0 if the pulse
    /// is not good.
    pub charge: i32,
    /// Document 01's number: 0, or 4 if the pulse is not good.
    pub answer: u32,
}
