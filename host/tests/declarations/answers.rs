//! The answers of Rust's table are the library's, by number and name: `DONE`, and its refusals.

use crate::altered::changed;
use crate::differences::differences;
use crate::item::{gathered, Item, Items, Place};
use crate::{rattle, sources};
use std::collections::BTreeMap;
use yarrowbell::Answer;

const LIBRARY: &str = "crates/commands/src/refusals.rt";

/// Rust's table as the library has it.
fn table() -> Items {
    let named = |answer: Answer| {
        let parts = BTreeMap::from([(Place::Value, answer.number().to_string())]);
        let file = "host/src/answer.rs".to_owned();
        let name = match answer {
            Answer::Done => "const DONE".to_owned(),
            refusal => format!("variant {refusal:?}"),
        };
        (name, Item { file, parts })
    };
    gathered(Answer::ALL.map(named))
}

fn compared(library: &str) -> Vec<String> {
    let constants = rattle::constants(LIBRARY, library);
    differences(&gathered(constants.into_iter().chain(rattle::variants(LIBRARY, library))), &table())
}

#[test]
fn the_table_has_the_librarys_answers() {
    let differences = compared(&sources::text(LIBRARY));
    assert!(differences.is_empty(), "\n{}", differences.join("\n"));
}

/// Document 01 has 0 to 17.
#[test]
fn the_numbers_are_document_01s() {
    assert_eq!(Answer::ALL.map(Answer::number).to_vec(), (0..=17).collect::<Vec<u8>>());
}

#[test]
fn another_number_name_or_answer_is_told() {
    let told = |from, to| compared(&changed(&sources::text(LIBRARY), from, to));
    assert_eq!(
        told("InHold = 8,", "InHold = 7,"),
        [format!("variant InHold, value: {LIBRARY} has `7`, host/src/answer.rs has `8`")]
    );
    assert_eq!(
        told("InHold", "Held"),
        [
            format!("variant Held stands in {LIBRARY} alone"),
            "variant InHold stands in host/src/answer.rs alone".to_owned(),
        ]
    );
    assert_eq!(
        told("Cut = 17,", "Cut = 17,\n    Late = 18,"),
        [format!("variant Late stands in {LIBRARY} alone")]
    );
    assert_eq!(told("    Cut = 17,", ""), ["variant Cut stands in host/src/answer.rs alone"]);
    assert_eq!(
        told("DONE: u8 = 0;", "DONE: u8 = 1;"),
        [format!("const DONE, value: {LIBRARY} has `1`, host/src/answer.rs has `0`")]
    );
}
