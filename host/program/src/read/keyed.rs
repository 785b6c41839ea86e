//! The fields of a frame by their names in small letters, as scripts have them.

use super::fields;
use super::reading::Reading;
use crate::field::Field;
use crate::frame::given::Value;
use serde::{Serialize, Serializer};

/// Something of each field: of an Update in a list, which has an entry for each listed channel.
#[derive(Serialize)]
#[serde(untagged)]
pub enum Keyed<T> {
    Once(Entry<T>),
    Listed(Vec<Entry<T>>),
}

/// Null where there is nothing of a field.
pub struct Entry<T>(Vec<(String, Option<T>)>);

impl<T: Serialize> Serialize for Entry<T> {
    fn serialize<S: Serializer>(&self, serializer: S) -> Result<S::Ok, S::Error> {
        serializer.collect_map(self.0.iter().map(|(key, is)| (key, is)))
    }
}

pub fn key(field: Field) -> String {
    field.name().to_lowercase()
}

/// The numbers of the fields whose bits are all there.
pub fn numbers(reading: &Reading) -> Option<Keyed<u16>> {
    of(reading, |value| (value.missing == 0).then_some(value.number))
}

/// What the text says of the fields of which there are bits.
pub fn words(reading: &Reading) -> Option<Keyed<String>> {
    of(reading, |value| Some(fields::told(value).trim_start().to_owned()))
}

/// Nothing if the frame has no fields.
fn of<T>(reading: &Reading, make: impl Fn(&Value) -> Option<T>) -> Option<Keyed<T>> {
    let variables = reading.given.places.iter().filter(|place| place.field.is_variable());
    let made = variables.map(|place| {
        let mut values = reading.values.iter();
        let value = values.find(|is| (is.field, is.entry) == (place.field, place.entry));
        (place.entry, (key(place.field), value.and_then(&make)))
    });
    let mut entries: Vec<(usize, Entry<T>)> = Vec::new();
    for (entry, made) in made {
        match entries.last_mut() {
            Some((last, fields)) if *last == entry => fields.0.push(made),
            _ => entries.push((entry, Entry(vec![made]))),
        }
    }
    match entries.first() {
        None => None,
        Some((0, _)) => entries.pop().map(|(_, fields)| Keyed::Once(fields)),
        Some(_) => Some(Keyed::Listed(entries.into_iter().map(|(_, fields)| fields).collect())),
    }
}
