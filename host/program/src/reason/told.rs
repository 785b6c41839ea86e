//! Reasons in words. None has a semicolon, which stands between them in a list.

use super::module::{larger_count, Module};
use super::{charge, least_t1, least_t2, Reason, Trip};
use crate::words::{self, milliseconds};
use std::cmp::Ordering;
use std::fmt;

impl fmt::Display for Reason {
    fn fmt(&self, out: &mut fmt::Formatter) -> fmt::Result {
        match *self {
            Reason::Check { is, says } => write!(out, "the check is {is}, the frame says {says}"),
            Reason::Value { channel, field, value } => {
                if let Some(channel) = channel {
                    write!(out, "channel {channel}: ")?;
                }
                write!(out, "{} {value}", field.name())?;
                field.broken(value).map_or(Ok(()), |rule| write!(out, ": {rule}"))
            }
            Reason::T2 { t2, listed } => {
                let (most, least) = (larger_count(listed), least_t2(listed));
                write!(out, "t2 {t2} is below 15·{most} = {least} tenths of a ms: ")?;
                write!(out, "{most} channels in {}", fuller(listed))
            }
            Reason::T1 { t1, t2, n } => {
                let least = least_t1(n, t2);
                write!(out, "t1 {t1} is below {n}·{t2} + 15 = {least} tenths of a ms: ")?;
                write!(out, "n·t2 + 15, n the largest Mode plus 1")
            }
            Reason::NoList => write!(out, "no list runs"),
            Reason::ListRuns { listed } => {
                write!(out, "a list runs, of {}", words::channels(listed))
            }
            Reason::Hold { module, left } => {
                let ticks = if left == 1 { "tick" } else { "ticks" };
                let time = milliseconds(left.into());
                write!(out, "{module} is in a hold for {left} more {ticks} ({time} ms)")
            }
            Reason::Shortest { t1, shortest } => {
                let [is, least] = [t1, shortest].map(milliseconds);
                write!(out, "t1 {t1} ({is} ms) is below the shortest t1 {shortest} ({least} ms)")
            }
            Reason::Current { channel, current, largest } => {
                write!(out, "channel {channel}: {current} mA is above its limit of {largest} mA")
            }
            Reason::Width { channel, width, largest } => {
                write!(out, "channel {channel}: {width} µs is above its limit of {largest} µs")
            }
            Reason::Charge { channel, current, width, largest } => {
                let is = charge(current, width);
                write!(out, "channel {channel}: {current} mA · {width} µs = {is} nC ")?;
                write!(out, "is above the limit of {largest} nC")
            }
            Reason::Tripped(trip) => {
                write!(out, "the box is tripped")?;
                if let Some(Trip { clock, cause }) = trip {
                    let time = milliseconds(clock);
                    write!(out, " since clock {clock} ({time} ms), cause: {cause}")?;
                }
                write!(out, ", and only Init and Stop lead out")
            }
        }
    }
}

/// Which module has the larger count.
fn fuller(listed: u8) -> &'static str {
    match Module::A.count(listed).cmp(&Module::B.count(listed)) {
        Ordering::Greater => "module A",
        Ordering::Less => "module B",
        Ordering::Equal => "each module",
    }
}
