//! `trace --json`

use crate::folder::Folder;
use crate::independently::played;
use crate::run::printed;
use crate::seeded::seeded;
use crate::table::object;
use serde_json::{json, Value};
use soak::sessions;

fn lines(words: &str) -> Vec<Value> {
    printed(words).lines().map(|line| object(line).into()).collect()
}

#[test]
fn every_kind_of_record() {
    let expected = [
        json!({
            "at": 0, "clock": 5, "ms": 0.5, "kind": "answer", "ident": 1, "command": "Update",
            "answer": 6, "answer_words": "Update, no list", "channel": null, "width_us": null,
            "current_ma": null, "cause": null, "cause_words": null, "marks": [],
        }),
        json!({
            "at": 7, "clock": 100, "ms": 10.0, "kind": "pulse", "ident": null, "command": null,
            "answer": null, "answer_words": null, "channel": 1, "width_us": 200, "current_ma": 40,
            "cause": null, "cause_words": null, "marks": [],
        }),
        json!({
            "at": 16, "clock": 255, "ms": 25.5, "kind": "trip", "ident": null, "command": null,
            "answer": null, "answer_words": null, "channel": null, "width_us": null,
            "current_ma": null, "cause": 2, "cause_words": "watchdog", "marks": [],
        }),
    ];
    let words = "trace --json 01050000000106 026400000001C80028 03FF00000002";
    assert_eq!(lines(words), expected);
    // The keys stand in this order.
    assert!(printed(words).starts_with(
        "{\"at\":0,\"clock\":5,\"ms\":0.5,\"kind\":\"answer\",\"ident\":1,\"command\":\"Update\",\
         \"answer\":6,\"answer_words\":\"Update, no list\",\"channel\":null,\"width_us\":null,\
         \"current_ma\":null,\"cause\":null,\"cause_words\":null,\"marks\":[]}\n"
    ));
}

/// Numbers without words, and marks.
#[test]
fn numbers_out_of_their_range() {
    let found = lines("trace --json 01000000000402 030100000007");
    assert_eq!((&found[0]["ident"], &found[0]["command"]), (&json!(4), &Value::Null));
    assert_eq!((&found[0]["answer"], &found[0]["answer_words"]), (&json!(2), &Value::Null));
    assert_eq!(found[0]["marks"], json!(["Ident is 0 to 3", "an answer is 0 or 3 to 10"]));
    assert_eq!((&found[1]["cause"], &found[1]["cause_words"]), (&json!(7), &Value::Null));
    assert_eq!(found[1]["marks"], json!(["a cause is 1 or 2"]));
}

#[test]
fn an_empty_readout() {
    let folder = Folder::new("an_empty_readout_as_json").with("empty", "# none\n");
    let ran = folder.line("trace --json empty");
    assert_eq!((ran.status, ran.out.as_str(), ran.err.as_str()), (0, "", ""));
}

/// The readouts of the independent machine, taken apart by document 01's layout.
#[test]
fn random_readouts() {
    let folder = Folder::new("random_readouts_as_json");
    let mut records = 0;
    seeded(23_000..23_150, |rng| {
        let session = sessions::session(rng);
        let (_, readout) = played(&session, session.profile);
        let hex: Vec<String> = readout.iter().map(|byte| format!("{byte:02x}")).collect();
        folder.put("t", hex.join(" "));
        let ran = folder.line("trace --json t");
        assert_eq!((ran.status, ran.err.as_str()), (0, ""));
        let mut rest = &readout[..];
        for line in ran.out.lines() {
            let number = |at: usize, bytes: usize| -> u32 {
                rest[at..at + bytes].iter().rev().fold(0, |all, byte| all << 8 | u32::from(*byte))
            };
            let (length, kind, fields) = match rest[0] {
                1 => (7, "answer", vec![("ident", number(5, 1)), ("answer", number(6, 1))]),
                2 => {
                    let fields = [("channel", 5, 1), ("width_us", 6, 2), ("current_ma", 8, 1)];
                    let fields = fields.map(|(name, at, bytes)| (name, number(at, bytes)));
                    (9, "pulse", fields.to_vec())
                }
                _ => (6, "trip", vec![("cause", number(5, 1))]),
            };
            let found = object(line);
            let (at, clock) = (readout.len() - rest.len(), number(1, 4));
            let front = [&found["at"], &found["clock"], &found["ms"], &found["kind"]];
            assert_eq!(
                front.map(Value::clone),
                [json!(at), json!(clock), json!(f64::from(clock) / 10.0), json!(kind)]
            );
            for name in ["ident", "answer", "channel", "width_us", "current_ma", "cause"] {
                let field = fields.iter().find(|(field, _)| *field == name);
                assert_eq!(found[name], json!(field.map(|(_, value)| value)), "{line}");
            }
            assert_eq!(found["marks"], json!([]), "{line}");
            rest = &rest[length..];
            records += 1;
        }
        assert!(rest.is_empty(), "not all of {readout:02X?}");
    });
    assert!(records > 1_000, "{records} records show little");
}
