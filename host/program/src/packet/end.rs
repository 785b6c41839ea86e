//! What comes of a packet: its checksum and its length worked out, and what the library says of it.

use super::always::{self, Always};
use super::framing::Counted;
use super::generation::Generation;
use super::given::{plain, Given};
use super::reading::Reading;
use super::rows::first_bytes;
use crate::hex;

pub fn of<G: Generation>(reading: &Reading<G>) -> Vec<String> {
    let given = &reading.given;
    let mut lines = Vec::new();
    if given.stop.is_some() {
        lines.extend(worked_out(given));
    }
    lines.push(format!("bytes used {}", reading.used()));
    if !given.behind().is_empty() {
        lines.push(format!("bytes behind, not used: {}", first_bytes(given.behind())));
    }
    lines.push(reading.answer_told());
    lines.extend(reading.reason.as_ref().map(|reason| reason.told(given.framing)));
    lines
}

fn worked_out(given: &Given) -> Vec<String> {
    let (units, covered) = (given.units(), given.covered());
    let mut lines = Vec::new();
    let unstuffed: usize =
        units.iter().map_while(|unit| unit.plain.and(Some(unit.bytes.len()))).sum();
    if unstuffed == covered.len() && !units.is_empty() {
        lines.push(format!("unstuffed {}", hex::spelt(&plain(&units))));
    }
    let over = match covered {
        [] => "no bytes".to_owned(),
        [_] => format!("byte {} as it stands", given.front()),
        _ => format!("bytes {} to {} as they stand", given.front(), given.end() - 1),
    };
    let (there, is) = (given.checksum(), given.right_checksum());
    let spelt = |number| always::spelt(number, there.size);
    lines.push(format!("checksum of {over} is {}", beside(&spelt(is), Some(is), &there, spelt)));
    let (there, is) = (given.length(), given.right_length());
    let number = u16::try_from(is).ok().filter(|_| is <= given.framing.highest);
    let of = match given.framing.counted {
        Counted::Same => "the same",
        Counted::Whole => "the whole packet",
    };
    let length = beside(&is.to_string(), number, &there, |number| number.to_string());
    lines.push(format!("length of {of} is {length}"));
    lines
}

/// What a number that is always stuffed is to be, beside what the packet has.
fn beside(right: &str, is: Option<u16>, there: &Always, spelt: impl Fn(u16) -> String) -> String {
    let stuffed = is.map_or_else(String::new, |is| {
        format!(", stuffed {}", hex::spelt(&always::pairs(is, there.size)))
    });
    let (has, verdict) = match (there.value(), there.bytes) {
        (Some(has), bytes) => {
            let verdict = if Some(has) == is { "right" } else { "wrong" };
            (format!("{}, stuffed {}", spelt(has), hex::spelt(bytes)), verdict)
        }
        (None, []) => ("none".to_owned(), "missing"),
        (None, bytes) => (format!("{}, not stuffed", hex::spelt(bytes)), "wrong"),
    };
    format!("{right}{stuffed}; the packet has {has}: {verdict}")
}
