//! "A sheet of any other shape": fields that are spelt otherwise, or are not those of the line's kind.

use crate::refused::{bad, GOOD};

/// Each field of each line with something around it or in it, or instead of it.
#[test]
fn fields_spelt_otherwise() {
    for line in GOOD {
        let fields: Vec<&str> = line.split(',').collect();
        for (place, field) in fields.iter().enumerate() {
            let with = |other: &str| {
                let mut fields = fields.clone();
                fields[place] = other;
                bad(&fields.join(","));
            };
            for around in [
                " ", "\t", "\"", "'", "+", "-", "\0", "\r", "\u{a0}", "\u{feff}", "é", "_", ".",
                "x", "0x", "\u{7f}", ";", "#", "=", "/", ":",
            ] {
                with(&format!("{around}{field}"));
                with(&format!("{field}{around}"));
                with(&format!("{around}{field}{around}"));
            }
            if field.starts_with(|first: char| first.is_ascii_digit()) {
                for other in [
                    format!("0{field}"),
                    format!("00{field}"),
                    format!("{field}.0"),
                    format!("{field}e0"),
                    format!("{field},"),
                    format!("-{field}"),
                    format!("0x{field}"),
                    "00".into(),
                    "".into(),
                    "a".into(),
                    "١".into(),
                ] {
                    with(&other);
                }
            } else if field.is_empty() {
                ["0", "1", "10", "100", "answer", "\"\"", "-"].into_iter().for_each(with);
            } else {
                ["", "pulses", "puls", "Pulse", "PULSE", "answers", "Answer", "tri", "Trip", "1"]
                    .into_iter()
                    .for_each(with);
            }
        }
    }
}

/// Too few fields, and too many.
#[test]
fn numbers_of_fields() {
    for line in GOOD {
        let fields: Vec<&str> = line.split(',').collect();
        for count in 0..fields.len() {
            bad(&fields[..count].join(","));
            bad(&fields[fields.len() - count..].join(","));
        }
        for more in [",", ",,", ",1", ",x", ",,,,,,"] {
            bad(&format!("{line}{more}"));
        }
        for place in 0..fields.len() {
            for more in ["", "1", "pulse"] {
                let mut fields = fields.clone();
                fields.insert(place, more);
                bad(&fields.join(","));
            }
            let mut fields = fields.clone();
            fields.remove(place);
            bad(&fields.join(","));
        }
    }
}

/// The fields of one kind beside the name of another, and kinds that there are none of.
#[test]
fn other_kinds() {
    for line in GOOD {
        let fields: Vec<&str> = line.split(',').collect();
        for kind in ["answer", "pulse", "trip", "stop", "init", "1", "2", "3", "", "pulse "] {
            if kind != fields[1] {
                let mut fields = fields.clone();
                fields[1] = kind;
                bad(&fields.join(","));
            }
        }
        bad(&line.to_uppercase());
    }
}

/// Fields that a kind lacks and fields that it must have.
#[test]
fn filled_and_empty() {
    for line in [
        "7,answer,0,100,,0",
        "7,answer,0,,10,0",
        "7,answer,0,100,10,0",
        "7,answer,,,,0",
        "7,answer,0,,,",
        ",answer,0,,,0",
        "7,pulse,1,100,10,0",
        "7,pulse,1,100,10,1",
        "7,pulse,,100,10,",
        "7,pulse,1,,10,",
        "7,pulse,1,100,,",
        ",pulse,1,100,10,",
        "7,trip,1,,,1",
        "7,trip,,100,,1",
        "7,trip,,,10,1",
        "7,trip,,,,",
        ",trip,,,,1",
        "7,,1,100,10,",
    ] {
        bad(line);
    }
}
