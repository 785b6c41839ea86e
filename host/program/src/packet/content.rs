//! Packet number, command and data, unstuffed, against the layout of their fields.

use super::field::{Field, Value};
use super::generation::{Data, Generation};
use crate::layout::{self, numbered, Place};

/// Packet number and command have so many bytes.
pub const FRONT: usize = 2;

/// A field's value, with the byte in which it begins.
pub struct Placed<F> {
    pub value: Value<F>,
    pub at: usize,
}

/// The values of all fields, as far as the bytes go.
pub fn values<G: Generation>(plain: &[u8]) -> Vec<Placed<G::Field>> {
    let mut values = of(&front::<G>(), plain, 0);
    if let Some(data) = data::<G>(plain) {
        values.extend(of(&data.places(), &plain[FRONT..], FRONT));
    }
    values
}

/// The number of the command, if it is there.
pub fn command<G: Generation>(plain: &[u8]) -> Option<u16> {
    let [_, command] = &of(&front::<G>(), plain, 0)[..] else { return None };
    command.value.number.try_into().ok()
}

/// The fields of the data, if there is a command that is carried.
pub fn data<G: Generation>(plain: &[u8]) -> Option<Data<G::Field>> {
    G::data(command::<G>(plain)?, &plain[FRONT..])
}

/// What stands at each place, as many as are asked for.
pub fn names<G: Generation>(plain: &[u8]) -> impl Iterator<Item = String> {
    let data = data::<G>(plain).map_or_else(Vec::new, |data| data.places());
    let named = layout::length(&data);
    let front = (0..FRONT).map(|byte| name(&front::<G>(), byte));
    let names: Vec<String> = front.chain((0..named).map(|byte| name(&data, byte))).collect();
    names.into_iter().chain((1 + named..).map(|place| format!("data byte {place}")))
}

fn front<G: Generation>() -> Vec<Place<G::Field>> {
    layout::places(G::FRONT, &[], 0, 8)
}

fn of<F: Field>(places: &[Place<F>], bytes: &[u8], before: usize) -> Vec<Placed<F>> {
    let there = places.iter().filter(|place| place.missing(bytes.len()) == 0);
    let placed = |place: &Place<F>| {
        let number = place.field.number(place.value(bytes));
        let value = Value { field: place.field, point: place.entry, number };
        Placed { value, at: before + place.first() }
    };
    there.map(placed).collect()
}

/// The fields of which there are bits in a byte.
fn name<F: Field>(places: &[Place<F>], byte: usize) -> String {
    let spans = places.iter().filter_map(|place| Some((place, place.span(byte)?)));
    let mut point = 0;
    let told = spans.map(|(place, span)| {
        point = place.entry;
        let name = place.field.name();
        match (place.size(), span.highest, span.lowest) {
            (16, 15, 8) => format!("{name} MSB"),
            (16, 7, 0) => format!("{name} LSB"),
            (size, highest, 0) if size == highest + 1 => name.to_owned(),
            (_, highest, lowest) => format!("{name} {}", numbered(highest, lowest)),
        }
    });
    let told: Vec<String> = told.collect();
    let of = if point == 0 { String::new() } else { format!("point {point}: ") };
    of + &told.join(", ")
}
