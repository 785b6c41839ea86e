//! "Lines ended by one line feed", and "an unended line always bad".

use crate::lines::{sheet, HEADER};
use crate::refused::{bad, refused, GOOD};

/// Every line cut anywhere, with or without good ones before.
#[test]
fn missing_ends() {
    for line in GOOD {
        for end in 1..=line.len() {
            let cut = &line.as_bytes()[..end];
            refused(&[HEADER.as_bytes(), cut].concat(), 2);
            refused(&[&sheet(&GOOD), cut].concat(), 6);
        }
    }
}

/// Two carriage returns, line feeds or both; a carriage return alone ends nothing.
#[test]
fn other_ends() {
    for line in GOOD {
        bad(&format!("{line}\r"));
        bad(&format!("{line}\r\r"));
        bad(&format!("\r{line}"));
        bad(&format!("{line}\r{line}"));
        bad(&format!("{line}\0"));
        bad(&format!("{line}\u{85}"));
        bad(&format!("{line}\u{2028}"));
        refused(&[HEADER.as_bytes(), line.as_bytes(), b"\r"].concat(), 2);
    }
    refused(&sheet(&GOOD).split(|byte| *byte == b'\n').collect::<Vec<_>>().join(&b"\r\n"[..]), 1);
    refused(HEADER.replace('\n', "\r").as_bytes(), 1);
}

#[test]
fn empty_lines() {
    bad("");
    refused(&[&sheet(&GOOD)[..], b"\n"].concat(), 6);
    refused(&[HEADER.as_bytes(), b"\n"].concat(), 2);
    refused(&[b"\n", &sheet(&GOOD)[..]].concat(), 1);
    for (place, _) in GOOD.iter().enumerate() {
        let mut lines = GOOD.to_vec();
        lines.insert(place, "");
        refused(&sheet(&lines), 2 + place);
    }
    for blank in [" ", "\t", ",", ",,", ",,,", ",,,,", ",,,,,", ",,,,,,", "\"\"", "\0"] {
        bad(blank);
    }
}
