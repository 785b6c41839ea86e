//! What an argument gives for a field of a packet.

use super::field::Field;
use crate::write::argument::Argument;

pub fn of(name: &str, field: impl Field, value: impl Into<i32>) -> Argument {
    let value = value.into();
    Argument { name: name.to_owned(), given: value.to_string(), broken: field.broken(value) }
}
