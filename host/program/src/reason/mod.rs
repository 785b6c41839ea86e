//! Why a command was refused, from the numbers that the box had when it came.

mod found;
mod module;
mod told;

pub use found::{everywhere, noted, of};

use crate::field::Field;
use module::Module;
use yarrowbell::{Answer, Cause};

/// A reason, with its numbers: channels from 1 to 8, the bits of those that were listed, times in
/// tenths of a millisecond.
#[derive(Clone, Copy, Debug, PartialEq, Eq)]
pub enum Reason {
    /// The check that the variables give, and the one that the frame says.
    Check { is: u32, says: u32 },
    /// A value that is not good, with the channel that it is for.
    Value { channel: Option<u8>, field: Field, value: u16 },
    /// t2 is below 15 for each channel of the fuller module.
    T2 { t2: u32, listed: u8 },
    /// t1 is below n·t2 + 15.
    T1 { t1: u32, t2: u32, n: u32 },
    /// An Update, and no list runs.
    NoList,
    /// A Single, and a list runs.
    ListRuns { listed: u8 },
    /// A Single, and so many ticks of its module's hold are left.
    Hold { module: Module, left: u8 },
    /// t1 is below the shortest.
    Shortest { t1: u32, shortest: u32 },
    /// A current above the channel's largest.
    Current { channel: u8, current: u8, largest: u8 },
    /// A width above the channel's largest.
    Width { channel: u8, width: u16, largest: u16 },
    /// A charge above the largest.
    Charge { channel: u8, current: u8, width: u16, largest: u32 },
    /// An Update or a Single, and the box is tripped: how, if that was seen.
    Tripped(Option<Trip>),
}

/// When and why a box tripped.
#[derive(Clone, Copy, Debug, PartialEq, Eq)]
pub struct Trip {
    pub clock: u32,
    pub cause: Cause,
}

impl Reason {
    /// The answer that it explains.
    pub fn answer(&self) -> Answer {
        match self {
            Reason::Check { .. } => Answer::WrongCheck,
            Reason::Value { .. } => Answer::NotGood,
            Reason::T2 { .. } | Reason::T1 { .. } => Answer::Timing,
            Reason::NoList => Answer::NoList,
            Reason::ListRuns { .. } => Answer::ListRuns,
            Reason::Hold { .. } => Answer::InHold,
            Reason::Shortest { .. }
            | Reason::Current { .. }
            | Reason::Width { .. }
            | Reason::Charge { .. } => Answer::OverLimit,
            Reason::Tripped(_) => Answer::WhileTripped,
        }
    }

    /// Whether its numbers break the rule that it speaks of.
    fn holds(&self) -> bool {
        match *self {
            Reason::Check { is, says } => is != says,
            Reason::Value { field, value, .. } => field.broken(value).is_some(),
            Reason::T2 { t2, listed } => t2 < least_t2(listed),
            Reason::T1 { t1, t2, n } => t1 < least_t1(n, t2),
            Reason::ListRuns { listed } => listed != 0,
            Reason::Hold { left, .. } => left > 0,
            Reason::Shortest { t1, shortest } => t1 < shortest,
            Reason::Current { current, largest, .. } => current > largest,
            Reason::Width { width, largest, .. } => width > largest,
            Reason::Charge { current, width, largest, .. } => charge(current, width) > largest,
            // They have no numbers to break a rule: they are the state itself.
            Reason::NoList | Reason::Tripped(_) => true,
        }
    }

    /// The same, of a box that was seen to trip.
    pub fn since(self, trip: Option<Trip>) -> Reason {
        match self {
            Reason::Tripped(_) => Reason::Tripped(trip),
            other => other,
        }
    }
}

/// "15 times the larger of the channel counts of modules A (channels 1 to 4) and B (5 to 8)"
fn least_t2(listed: u8) -> u32 {
    15 * module::larger_count(listed)
}

/// "n·t2 + 15"
fn least_t1(n: u32, t2: u32) -> u32 {
    n * t2 + 15
}

/// "current times width in nanocoulombs"
fn charge(current: u8, width: u16) -> u32 {
    u32::from(current) * u32::from(width)
}

#[cfg(test)]
mod tests;
