//! Frames as the program tells them to scripts: one object in a line.

use crate::run::printed;
use crate::table::object;
use independent::{Command, Init, Setting, Single};
use serde_json::{Map, Value};

pub type Object = Map<String, Value>;

/// The object that a line prints, which stands in one line.
pub fn told(words: &str) -> Object {
    let out = printed(words);
    assert_eq!(out.lines().count(), 1, "{words}");
    object(&out)
}

pub fn hex(bytes: &[u8]) -> String {
    bytes.iter().map(|byte| format!("{byte:02X}")).collect::<Vec<String>>().join(" ")
}

/// These keys have these values.
pub fn has(words: &str, values: Value) {
    let told = told(words);
    for (key, value) in values.as_object().expect("keys with values") {
        assert_eq!(told[key], *value, "{words}: {key}");
    }
}

/// The command of its `ident` and its `fields`.
pub fn command(told: &Object) -> Command {
    let fields = &told["fields"];
    let of = |fields: &Value, key: &str| number(&fields[key]);
    match number(&told["ident"]) {
        0 => Command::Init(Init {
            n_factor: of(fields, "n_factor") as u8,
            channel_stim: of(fields, "channel_stim") as u8,
            channel_lf: of(fields, "channel_lf") as u8,
            group_time: of(fields, "group_time") as u8,
            main_time: of(fields, "main_time") as u16,
        }),
        1 => {
            let mut settings = [Setting::default(); 8];
            let entries = fields.as_array().expect("an Update has a list");
            for (setting, entry) in settings.iter_mut().zip(entries) {
                *setting = Setting {
                    mode: of(entry, "mode") as u8,
                    pulse_width: of(entry, "pulse_width") as u16,
                    pulse_current: of(entry, "pulse_current") as u8,
                };
            }
            Command::Update(settings)
        }
        2 => {
            assert_eq!(*fields, Value::Null);
            Command::Stop
        }
        _ => Command::Single(Single {
            channel_number: of(fields, "channel_number") as u8,
            pulse_width: of(fields, "pulse_width") as u16,
            pulse_current: of(fields, "pulse_current") as u8,
        }),
    }
}

pub fn number(value: &Value) -> usize {
    value.as_u64().unwrap_or_else(|| panic!("{value} is no number")) as usize
}
