//! The fields of a frame in lines, those of each listed channel together.

use crate::frame::given::Value;
use crate::layout::numbered;

pub fn of(values: &[Value]) -> Vec<String> {
    let mut lines = Vec::new();
    let mut entry = 0;
    for value in values {
        if value.entry != entry {
            entry = value.entry;
            let which = if entry == 1 { "lowest" } else { "next" };
            lines.push(format!("entry {entry}, the {which} listed channel"));
        }
        let indent = if entry == 0 { "" } else { "  " };
        lines.push(format!("{:15}{}", format!("{indent}{}", value.field.name()), told(value)));
    }
    lines
}

/// The number with its meaning, or what is missing or wrong.
pub fn told(value: &Value) -> String {
    let Value { field, number, missing, .. } = value;
    if *missing != 0 {
        return format!("    -: {} missing", numbered(missing - 1, 0));
    }
    let meaning = field.meaning(*number);
    let fault =
        field.broken(*number).map_or_else(String::new, |rule| format!(", not good: {rule}"));
    format!("{number:5}{meaning}{fault}")
}
