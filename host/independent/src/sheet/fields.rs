//! A record as the fields of its line.

use super::in_range;
use crate::record::Record;
use std::str::FromStr;

pub const COLUMNS: usize = 6;

/// "The header line is exactly `clock,kind,channel,width_us,current_ma,code`".
pub const HEADER: [&str; COLUMNS] = ["clock", "kind", "channel", "width_us", "current_ma", "code"];

/// "Kinds are `answer`, `pulse`, `trip`."
const ANSWER: &str = "answer";
const PULSE: &str = "pulse";
const TRIP: &str = "trip";

/// "Fields that a record lacks are empty, but for Ident, which stands in the channel column."
const LACKING: &str = "";

/// The fields of a record. Answer and cause are its code.
pub fn fields(record: &Record) -> [String; COLUMNS] {
    let (clock, kind, [channel, width, current, code]) = match *record {
        Record::Answer { clock, ident, answer } => {
            (clock, ANSWER, [text(ident), LACKING.into(), LACKING.into(), text(answer)])
        }
        Record::Pulse { clock, channel, width, current } => {
            (clock, PULSE, [text(channel), text(width), text(current), LACKING.into()])
        }
        Record::Trip { clock, cause } => {
            (clock, TRIP, [LACKING.into(), LACKING.into(), LACKING.into(), text(cause)])
        }
    };
    [text(clock), kind.into(), channel, width, current, code]
}

/// The record of these fields, if they are those of one and each is in its range.
pub fn record(fields: &[String; COLUMNS]) -> Option<Record> {
    let record = match fields.each_ref().map(String::as_str) {
        [clock, ANSWER, ident, LACKING, LACKING, answer] => {
            Record::Answer { clock: number(clock)?, ident: number(ident)?, answer: number(answer)? }
        }
        [clock, PULSE, channel, width, current, LACKING] => Record::Pulse {
            clock: number(clock)?,
            channel: number(channel)?,
            width: number(width)?,
            current: number(current)?,
        },
        [clock, TRIP, LACKING, LACKING, LACKING, cause] => {
            Record::Trip { clock: number(clock)?, cause: number(cause)? }
        }
        _ => return None,
    };
    in_range(&record).then_some(record)
}

/// "Numbers are decimal without leading zeros".
fn text(number: impl Into<u32>) -> String {
    number.into().to_string()
}

/// The number that is spelt so and not otherwise: the language reads a plus sign and leading zeros too.
fn number<T: FromStr + Into<u32> + Copy>(spelt: &str) -> Option<T> {
    spelt.parse().ok().filter(|number| text(*number) == spelt)
}
