//! The refusals of a box, in words.

use crate::profile::OutOfRange;
use crate::{Answer, Guard};
use std::error::Error;
use std::fmt;

/// What was refused, by answer 11, 13, 15 or 16: the call changed nothing.
///
/// ```
/// use yarrowbell::{Guard, Profile};
///
/// let profile = Profile { watchdog: 0, ..Profile::LOOSEST };
/// let refusal = Guard::new(profile, 64).expect_err("no good watchdog is 0");
/// assert_eq!(
///     refusal.to_string(),
///     "answer 11: the watchdog is 0, less than 1: profile not good"
/// );
/// ```
#[derive(Clone, Debug, PartialEq, Eq)]
pub enum Refusal {
    /// A profile of which this number is out of its range.
    Profile(OutOfRange),
    /// A ring of so many bytes, which are too few or too many.
    Capacity(usize),
    /// A tick at the clock's end.
    Tick,
    /// A readout of `trace` bytes into an output of `room`.
    Output {
        /// How many bytes the output has.
        room: usize,
        /// How many the trace has.
        trace: usize,
    },
}

impl Refusal {
    /// The answer by which it was refused.
    pub fn answer(&self) -> Answer {
        match self {
            Refusal::Profile(_) => Answer::ProfileNotGood,
            Refusal::Capacity(_) => Answer::RingOutside,
            Refusal::Tick => Answer::ClockAtEnd,
            Refusal::Output { .. } => Answer::OutputTooShort,
        }
    }
}

impl fmt::Display for Refusal {
    fn fmt(&self, out: &mut fmt::Formatter) -> fmt::Result {
        let answer = self.answer();
        write!(out, "answer {}: ", answer.number())?;
        match self {
            Refusal::Profile(number) => write!(out, "{number}")?,
            Refusal::Capacity(capacity) => {
                let (least, most) = Guard::CAPACITIES.into_inner();
                write!(out, "a ring of {capacity} bytes, where {least} to {most} are good")?;
            }
            Refusal::Tick => write!(out, "a tick at clock {}", u32::MAX)?,
            Refusal::Output { room, trace } => {
                write!(out, "an output of {room} bytes for a trace of {trace}")?;
            }
        }
        write!(out, ": {answer}")
    }
}

impl Error for Refusal {}
