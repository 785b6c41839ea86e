//! A pulse, point by point.

use super::amounts::{charge, milliamps, nanocoulombs};
use super::areas::{self, Areas};
use super::field::{uncoded, Field};
use super::read::pulse;
use crate::packet::field::{Field as _, Value};
use yarrowbell::rehamove3::{Packet, Point};

/// What is said of a pulse that the writer refuses.
pub const NOT_WRITTEN: &str = "a pulse with a net charge is not written (document 02, request 13)";

/// A row for each point of which there is all, and the charge of a pulse that the library read.
pub fn told(values: &[Value<Field>], read: Option<&Packet>) -> Vec<String> {
    let points = values.iter().map(|value| value.point).max().unwrap_or(0);
    let rows: Vec<String> = (1..=points).filter_map(|point| row(values, point)).collect();
    if rows.is_empty() {
        return rows;
    }
    let head = columns(["point", "duration", "coded", "current", "charge"]);
    let pulse = read.and_then(|packet| Some((packet.charge, pulse(packet)?)));
    let charges = pulse.map(|(net, pulse)| {
        let Areas { above, below } = Areas::of(pulse.points());
        let [above, below] = [("above", above), ("below", below)]
            .map(|(side, area)| format!("charge {side} zero {}", charge(area)));
        [above, below, told_net(net)]
    });
    [head].into_iter().chain(rows).chain(charges.into_iter().flatten()).collect()
}

/// One point, if its duration and its current are there, with what is not good.
fn row(values: &[Value<Field>], point: usize) -> Option<String> {
    let of_point = || values.iter().filter(|value| value.point == point);
    let number = |field| of_point().find(|value| value.field == field).map(|value| value.number);
    let (duration, code) = (number(Field::Duration)?, number(Field::Current)?);
    let is = Point { duration: duration.try_into().ok()?, current: uncoded(code)? };
    let cells = [
        point.to_string(),
        format!("{duration} µs"),
        code.to_string(),
        milliamps(is.current.into()),
        nanocoulombs(areas::charge(&is)),
    ];
    let faults = of_point().filter_map(|value| {
        let rule = value.field.broken(value.number)?;
        Some(format!(", {} not good: {rule}", value.field.name()))
    });
    Some(columns(cells.each_ref().map(String::as_str)) + &faults.collect::<String>())
}

fn columns([point, duration, code, current, charge]: [&str; 5]) -> String {
    format!("{point:>5}  {duration:>8}  {code:>5}  {current:>9}  {charge:>12}")
}

/// The net charge, and what that means for the writer.
fn told_net(halves: i32) -> String {
    let note = if halves == 0 { String::new() } else { format!(": {NOT_WRITTEN}") };
    format!("net charge {}{note}", charge(halves))
}

/// The points of a packet that the library read, and their net charge.
pub fn in_row(packet: &Packet) -> Vec<String> {
    let Some(pulse) = pulse(packet) else { return Vec::new() };
    let point =
        |point: &Point| format!("{} µs {}", point.duration, milliamps(point.current.into()));
    let net = format!("net charge {}", charge(packet.charge));
    pulse.points().iter().map(point).chain([net]).collect()
}
