//! A point of a pulse, as a word of the command line.

use super::amounts::milliamps;
use super::field::{coded, Field};
use crate::number;
use crate::packet::field::Field as _;
use thiserror::Error;
use yarrowbell::rehamove3::Point;

/// How a point is spelt.
pub const SPELLING: &str = "DURATION:MILLIAMPS";

#[derive(Debug, Error)]
pub enum NotPoint {
    #[error("not spelt as {SPELLING}, as 250:20 or 250:-20.5")]
    Spelling,
    #[error("the duration {0:?} is not a good whole number: {1}")]
    Duration(String, &'static str),
    #[error("the current {0:?} is no number of milliamps, as 20, -20 or 20.5: {1}")]
    Current(String, &'static str),
    #[error("the current {word:?} cannot be coded: {} is coded {}, {} is coded {}",
        milliamps((*below).into()), coded(*below), milliamps((*above).into()), coded(*above))]
    Between { word: String, below: i16, above: i16 },
}

/// Millionths of a milliamp, in which currents are given, are coded in steps of this.
const STEP: u64 = 1_000_000 / 2;

pub fn parsed(word: &str) -> Result<Point, NotPoint> {
    let (duration, current) = word.split_once(':').ok_or(NotPoint::Spelling)?;
    let rule = Field::Duration.rule();
    let no_duration = || NotPoint::Duration(duration.to_owned(), rule);
    let duration = number::whole(duration).ok_or_else(no_duration)?;
    Ok(Point { duration, current: halves(current)? })
}

/// Milliamps in half ones. What a current can hold is the library's to judge.
fn halves(word: &str) -> Result<i16, NotPoint> {
    let outside = || NotPoint::Current(word.to_owned(), Field::Current.rule());
    let (number, sign) = word.strip_prefix('-').map_or((word, 1), |number| (number, -1));
    let amount = number::millionths(number).ok_or_else(outside)?;
    let signed = |halves| i16::try_from(halves).map(|halves| sign * halves).map_err(|_| outside());
    let (near, far) = (signed(amount / STEP)?, signed(amount.div_ceil(STEP))?);
    let (below, above) = (near.min(far), near.max(far));
    match [below, above].map(|halves| Field::Current.broken(coded(halves))) {
        _ if below == above => Ok(near),
        [None, None] => Err(NotPoint::Between { word: word.to_owned(), below, above }),
        _ => Err(outside()),
    }
}
