//! Where two sides differ.

use crate::item::{Item, Items, Place};
use std::collections::BTreeSet;

/// A line for each item that one side lacks, and for each place in which an item differs.
pub fn differences(one: &Items, other: &Items) -> Vec<String> {
    let names: BTreeSet<&String> = one.keys().chain(other.keys()).collect();
    let lines = |name: &String| match (one.get(name), other.get(name)) {
        (Some(one), Some(other)) => in_parts(name, one, other),
        (one, other) => {
            let only = one.or(other).map_or("", |item| &item.file);
            vec![format!("{name} stands in {only} alone")]
        }
    };
    names.into_iter().flat_map(lines).collect()
}

fn in_parts(name: &str, one: &Item, other: &Item) -> Vec<String> {
    let places: BTreeSet<&Place> = one.parts.keys().chain(other.parts.keys()).collect();
    let differs = |place: &&Place| one.parts.get(place) != other.parts.get(place);
    let line = |place| format!("{name}, {place}: {}, {}", has(one, place), has(other, place));
    places.into_iter().filter(differs).map(line).collect()
}

fn has(item: &Item, place: &Place) -> String {
    match item.parts.get(place) {
        Some(part) => format!("{} has `{part}`", item.file),
        None => format!("{} has none", item.file),
    }
}
