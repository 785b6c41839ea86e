//! Steps and their events in words.

use super::table::{Cell, Table};
use crate::course::{Decided, Event, Pulse, What};
use crate::frame::layout::places;
use crate::layout::length;
use crate::play::{Done, Step};
use crate::wrapping::together;
use crate::{hex, words};
use yarrowbell::Answer;

/// The lines of a step: the command that was decided in it, and what came about.
pub fn step(step: &Step, table: &Table) -> String {
    let columns = columns(step);
    let most = columns.iter().map(Vec::len).max().unwrap_or(0);
    if most == 0 {
        return String::new();
    }
    let mut lines = command(step).map_or_else(Vec::new, |command| table.across(&command));
    for row in 0..most {
        let cells = columns.iter().map(|column| column.get(row).copied().flatten());
        lines.extend(table.beside(&cells.map(cell).collect::<Vec<Cell>>()));
    }
    table.timed(step.clock, &lines)
}

/// The events of each unit. Where only some units dropped a frame, the others have none beside it.
fn columns(step: &Step) -> Vec<Vec<Option<&Event>>> {
    let dropped = |done: &Done| {
        done.events.first().is_some_and(|event| matches!(event.what, What::Dropped(_)))
    };
    let some = step.of.iter().any(dropped);
    let column = |done| {
        let none = (some && !dropped(done)).then_some(None);
        none.into_iter().chain(done.events.iter().map(Some)).collect()
    };
    step.of.iter().map(column).collect()
}

/// The lines of what there is to say of each unit at the end.
pub fn end(ends: &[Option<Event>], table: &Table) -> String {
    let Some(clock) = ends.iter().flatten().map(|event| event.clock).next() else {
        return String::new();
    };
    let cells = ends.iter().map(|event| cell(event.as_ref()));
    table.timed(clock, &table.beside(&cells.collect::<Vec<Cell>>()))
}

/// The command that units decided in a step. Its channels are named if their lists were the same.
fn command(step: &Step) -> Option<String> {
    let events = step.of.iter().flat_map(|done| &done.events);
    let decided = events.filter_map(|event| match &event.what {
        What::Decided(Decided { bytes, listed, .. }) => Some((bytes, *listed)),
        _ => None,
    });
    let (bytes, listed) = decided
        .reduce(|(bytes, listed), (_, other)| (bytes, if listed == other { listed } else { 0 }))?;
    let words = together(&words::command(bytes, listed));
    Some(format!("> {}  {words}", hex::spelt(bytes)))
}

fn cell(event: Option<&Event>) -> Cell {
    let Some(event) = event else {
        return Cell::default();
    };
    let what = match &event.what {
        What::Decided(Decided { answer, reply, .. }) => {
            format!("{}, reply {}", words::answer(*answer), hex::spelt(&[*reply]))
        }
        What::Stray(byte) => {
            format!("stray byte {}, answer {}", hex::spelt(&[*byte]), Answer::LowByte.number())
        }
        What::Dropped(bytes) => format!("dropped unfinished: {}", part(bytes)),
        What::Unfinished(bytes) => format!("unfinished at the end: {}", part(bytes)),
        What::Pulse(Pulse { channel, width, current }) => {
            format!("pulse on channel {channel}: {width} µs, {current} mA")
        }
        What::Trip(cause) => format!("TRIP, cause: {cause}"),
    };
    let why = match &event.what {
        What::Decided(Decided { reasons, .. }) => reasons.iter().map(ToString::to_string).collect(),
        _ => Vec::new(),
    };
    Cell { what, why }
}

/// The bytes of an unfinished frame, and how much of it they are. How long an Update would have
/// become lay with the list.
fn part(bytes: &[u8]) -> String {
    let (spelt, name, there) = (hex::spelt(bytes), words::name(bytes[0]), bytes.len());
    match (name, there) {
        ("Update", 1) => format!("{spelt} ({name}, 1 byte)"),
        ("Update", _) => format!("{spelt} ({name}, {there} bytes)"),
        _ => {
            let length = length(&places(bytes[0], 0));
            format!("{spelt} ({name}, {there} of {length} bytes)")
        }
    }
}
