//! The bits of bytes in rows, and which field each belongs to.

use crate::field::Field;
use crate::frame::given::Given;
use crate::frame::layout::Place;
use crate::layout::{numbered, Span};

/// A row for each byte of the frame, and below it one for each field that has bits in it. A low
/// first byte stands alone; a high byte that cuts the frame stands last.
pub fn of(given: &Given) -> Vec<String> {
    let mut rows = vec!["byte  hex  76543210".to_owned()];
    for (place, byte) in given.bytes[..given.own].iter().enumerate() {
        let mark = match (place, given.is_frame()) {
            (0, true) => "bit 7 set: a frame begins",
            (0, false) => "bit 7 clear: no frame begins",
            _ => "bit 7 clear: the frame goes on",
        };
        rows.push(of_byte(place, *byte, mark));
        let spans = given.places.iter().filter_map(|field| Some((field, field.span(place)?)));
        rows.extend(spans.map(|(field, span)| of_span(*byte, field, &span)));
    }
    if let Some(byte) = given.cutting() {
        rows.push(of_byte(given.own, byte, "bit 7 set: another frame begins, which cuts this one"));
    }
    rows
}

/// Bytes are numbered from 1, as in source 003's tables.
fn of_byte(place: usize, byte: u8, mark: &str) -> String {
    format!("{:>4}   {byte:02X}  {byte:08b}  {mark}", place + 1)
}

fn of_span(byte: u8, place: &Place, span: &Span) -> String {
    let bit = |bit: u8| match (span.mask >> bit & 1, byte >> bit & 1) {
        (0, _) => '.',
        (_, 0) => '0',
        _ => '1',
    };
    let bits: String = (0..8).rev().map(bit).collect();
    let name = place.field.name();
    let what = match place.field {
        Field::DontCare if byte & span.mask != 0 => format!("{name}, set"),
        Field::DontCare => name.to_owned(),
        _ => format!("{name} {}", numbered(span.highest, span.lowest)),
    };
    let entry = match place.entry {
        0 => String::new(),
        entry => format!("entry {entry}: "),
    };
    format!("{:11}{bits}  {entry}{what}", "")
}
