//! The states of a box.

use std::fmt;

/// A state of document 01, "The machine".
#[derive(Clone, Copy, Debug, PartialEq, Eq)]
pub enum State {
    /// No list runs.
    Idle,
    /// A list runs.
    Running,
    /// A limit or the watchdog has stopped the box; Init and Stop lead out.
    Tripped,
}

impl State {
    /// The state of a box record's number.
    pub(crate) fn known(number: u16) -> State {
        match number {
            0 => State::Idle,
            1 => State::Running,
            _ => State::Tripped,
        }
    }
}

impl fmt::Display for State {
    fn fmt(&self, out: &mut fmt::Formatter) -> fmt::Result {
        out.pad(match self {
            State::Idle => "idle",
            State::Running => "running",
            State::Tripped => "tripped",
        })
    }
}
