//! The fields of a command by their names in small letters, as scripts have them.

use super::field::{Field, Value};
use super::fields;
use serde::{Serialize, Serializer};

/// Something of each field that stands once.
pub struct Keyed<T>(Vec<(String, T)>);

impl<T: Serialize> Serialize for Keyed<T> {
    fn serialize<S: Serializer>(&self, serializer: S) -> Result<S::Ok, S::Error> {
        serializer.collect_map(self.0.iter().map(|(key, is)| (key, is)))
    }
}

pub fn numbers<F: Field>(values: &[Value<F>]) -> Keyed<i32> {
    Keyed(fields::once(values).map(|value| (value.field.key(), value.number)).collect())
}

/// What the text says of them.
pub fn words<F: Field>(values: &[Value<F>]) -> Keyed<String> {
    let told = |value: &Value<F>| (value.field.key(), fields::told(value, 0));
    Keyed(fields::once(values).map(told).collect())
}
