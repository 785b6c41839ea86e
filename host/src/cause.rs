//! Why a box trips.

use std::fmt;

/// A cause of document 01, "The ring".
#[derive(Clone, Copy, Debug, PartialEq, Eq)]
#[repr(u8)]
pub enum Cause {
    /// A command was over a limit: at every answer 9.
    Limit = 1,
    /// The watchdog count reached the watchdog.
    Watchdog = 2,
}

impl Cause {
    /// Of the number that a record of a trip has.
    pub fn from_number(number: u8) -> Option<Cause> {
        [Cause::Limit, Cause::Watchdog].into_iter().find(|cause| cause.number() == number)
    }

    /// Document 01's number.
    pub fn number(self) -> u8 {
        self as u8
    }
}

impl fmt::Display for Cause {
    fn fmt(&self, out: &mut fmt::Formatter) -> fmt::Result {
        out.pad(match self {
            Cause::Limit => "limit",
            Cause::Watchdog => "watchdog",
        })
    }
}
