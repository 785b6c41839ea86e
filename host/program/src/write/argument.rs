//! What the arguments give, and which of them is named if the library refuses it.

use crate::failure::BadInput;
use crate::field::Field;
use std::fmt::Display;

/// An argument, what it gives, and the paper's rule if that is not good.
pub struct Argument {
    pub name: String,
    pub given: String,
    pub broken: Option<&'static str>,
}

impl Argument {
    /// One that gives a field's value, in the way that people count it.
    pub fn of(name: &str, given: impl Display, field: Field, value: impl Into<u16>) -> Argument {
        Argument {
            name: name.to_owned(),
            given: given.to_string(),
            broken: field.broken(value.into()),
        }
    }

    /// What is said of it for the library's refusal, if it is at fault.
    pub fn fault(&self, why: impl Display) -> Option<BadInput> {
        let what = format!("{} is not good ({why}): {}", self.given, self.broken?);
        Some(BadInput::argument(&self.name, what))
    }
}
