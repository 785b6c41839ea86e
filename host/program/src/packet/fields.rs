//! The fields of a packet in lines.

use super::field::{Field, Value};
use super::generation::Generation;
use super::reading::Reading;

/// Those that stand once.
pub fn of<G: Generation>(reading: &Reading<G>) -> Vec<String> {
    let other = reading.found.packet.is_ok_and(|packet| !G::read(&packet).carried);
    let (command, _) = G::FRONT[1];
    let told = |value: &Value<G::Field>| {
        let note = if other && value.field == command { OTHER } else { "" };
        format!("{:31}{}{note}", value.field.name(), told(value, 6))
    };
    once(&reading.values()).map(told).collect()
}

/// What is said of a command that the library does not carry.
const OTHER: &str = ", a command whose data is given back as bytes";

/// The values to tell that stand once.
pub fn once<F: Field>(values: &[Value<F>]) -> impl Iterator<Item = &Value<F>> {
    values.iter().filter(|value| value.point == 0 && is_told(value))
}

/// Reserved bits are told if they are not as they should be.
fn is_told<F: Field>(value: &Value<F>) -> bool {
    !value.field.is_reserved() || value.field.broken(value.number).is_some()
}

/// The number, in so many places, with its meaning, and what is wrong with it.
pub fn told<F: Field>(value: &Value<F>, places: usize) -> String {
    let Value { field, number, .. } = *value;
    let meaning = field.meaning(number);
    let fault = field.broken(number).map_or_else(String::new, |rule| format!(", not good: {rule}"));
    format!("{number:places$}{meaning}{fault}")
}
