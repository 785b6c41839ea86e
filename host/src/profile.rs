//! The ranges of a profile, and the order of profiles (document 01, "Profile").

use crate::raw::Profile;
use std::fmt;
use std::ops::RangeInclusive;

/// A number of a profile that is out of its range.
#[derive(Clone, Debug, PartialEq, Eq)]
pub struct OutOfRange {
    what: String,
    is: u32,
    least: u32,
    most: u32,
}

/// A number by which one profile is looser than another.
#[derive(Clone, Debug, PartialEq, Eq)]
pub struct Looser {
    what: String,
    is: u32,
    other: u32,
}

/// A number of a profile by its name.
struct Number {
    what: String,
    is: u32,
    range: RangeInclusive<u32>,
    /// Whether it is the looser the smaller it is.
    falling: bool,
}

impl Profile {
    /// What the largest current of a channel may be, in milliamps.
    pub const CURRENTS: RangeInclusive<u32> = 0..=127;
    /// What the largest width of a channel may be, in microseconds.
    pub const WIDTHS: RangeInclusive<u32> = 0..=500;
    /// What the largest charge may be, in nanocoulombs.
    pub const CHARGES: RangeInclusive<u32> = 0..=63_500;
    /// What the shortest t1 may be, in tenths of a millisecond.
    pub const SHORTEST: RangeInclusive<u32> = 30..=10_235;
    /// What the watchdog may be, in tenths of a millisecond.
    pub const WATCHDOGS: RangeInclusive<u32> = 1..=600_000;

    /// The good profile that is nowhere tighter than another.
    pub const LOOSEST: Profile = Profile {
        currents: [127; 8],
        widths: [500; 8],
        charge: 63_500,
        shortest: 30,
        watchdog: 600_000,
    };

    /// The first number that is out of its range: a profile is good if there is none.
    pub fn out_of_range(&self) -> Option<OutOfRange> {
        self.numbers().find(|number| !number.range.contains(&number.is)).map(|number| OutOfRange {
            what: number.what,
            is: number.is,
            least: *number.range.start(),
            most: *number.range.end(),
        })
    }

    /// The first number by which this profile is looser than the other: it is nowhere looser if
    /// there is none.
    ///
    /// ```
    /// use yarrowbell::Profile;
    ///
    /// let mut tighter = Profile { watchdog: 250, ..Profile::LOOSEST };
    /// tighter.currents[2] = 100;
    /// assert_eq!(tighter.looser_than(&Profile::LOOSEST), None);
    /// let looser = Profile::LOOSEST.looser_than(&tighter).expect("channel 3 has another limit");
    /// assert_eq!(looser.to_string(), "the largest current of channel 3 is 127, the other's 100");
    /// ```
    pub fn looser_than(&self, other: &Profile) -> Option<Looser> {
        let looser = |(is, other): &(Number, Number)| {
            if is.falling {
                is.is < other.is
            } else {
                is.is > other.is
            }
        };
        self.numbers().zip(other.numbers()).find(looser).map(|(number, other)| Looser {
            what: number.what,
            is: number.is,
            other: other.is,
        })
    }

    fn numbers(&self) -> impl Iterator<Item = Number> {
        let currents = (1..).zip(self.currents).map(|(channel, is)| {
            (format!("the largest current of channel {channel}"), is.into(), Profile::CURRENTS)
        });
        let widths = (1..).zip(self.widths).map(|(channel, is)| {
            (format!("the largest width of channel {channel}"), is.into(), Profile::WIDTHS)
        });
        let charge = ("the largest charge".to_owned(), self.charge, Profile::CHARGES);
        let watchdog = ("the watchdog".to_owned(), self.watchdog, Profile::WATCHDOGS);
        let shortest = ("the shortest t1".to_owned(), self.shortest, Profile::SHORTEST);
        let number = |falling| {
            move |(what, is, range): (String, u32, RangeInclusive<u32>)| Number {
                what,
                is,
                range,
                falling,
            }
        };
        let rising = currents.chain(widths).chain([charge]).map(number(false));
        rising.chain([number(true)(shortest), number(false)(watchdog)])
    }
}

impl fmt::Display for OutOfRange {
    fn fmt(&self, out: &mut fmt::Formatter) -> fmt::Result {
        let OutOfRange { what, is, least, most } = self;
        if is < least {
            write!(out, "{what} is {is}, less than {least}")
        } else {
            write!(out, "{what} is {is}, more than {most}")
        }
    }
}

impl fmt::Display for Looser {
    fn fmt(&self, out: &mut fmt::Formatter) -> fmt::Result {
        let Looser { what, is, other } = self;
        write!(out, "{what} is {is}, the other's {other}")
    }
}
