//! Records in words: every field with its name and unit.

use crate::field::Field;
use crate::words;
use yarrowbell::{Answer, Body, Cause};

/// The record's name and its fields. A record is known by its kind alone, so that a number may have
/// no words.
pub fn body(body: Body) -> String {
    match body {
        Body::Answer { ident, answer } => {
            let command = command(ident).map_or_else(String::new, |name| format!(" ({name})"));
            let answer = decided(answer).map_or_else(|| format!("answer {answer}"), words::answer);
            format!("answer  Ident {ident}{command}, {answer}")
        }
        Body::Pulse { channel, width, current } => {
            let width = valued("width", Field::PulseWidth, width);
            let current = valued("current", Field::PulseCurrent, current.into());
            format!("pulse   channel {channel}, {width}, {current}")
        }
        Body::Trip { cause } => {
            let words = Cause::from_number(cause).map_or_else(String::new, |is| format!(": {is}"));
            format!("trip    cause {cause}{words}")
        }
    }
}

/// What no unit writes of a record, if there is something.
pub fn marks(marks: &[String]) -> String {
    if marks.is_empty() {
        return String::new();
    }
    format!("  <-- no unit writes this: {}", marks.join("; "))
}

/// The command that an Ident is of.
pub fn command(ident: u8) -> Option<&'static str> {
    words::COMMANDS.get(usize::from(ident)).copied()
}

/// The answer of a number that a command can get.
pub fn decided(answer: u8) -> Option<Answer> {
    Answer::from_number(answer).filter(|known| known.decides())
}

fn valued(name: &str, field: Field, value: u16) -> String {
    format!("{name} {value}{}", field.meaning(value))
}
