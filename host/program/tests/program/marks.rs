//! What no unit writes, in a trace.

use crate::folder::Folder;
use crate::independently::{text, toml};
use crate::run::printed;
use crate::seeded::seeded;
use crate::table::object;
use rand::Rng;
use soak::sessions;

const INIT: &str = "01 00000000 00 00 ";
const STOP: &str = "01 00000000 02 00 ";
const SINGLE: &str = "01 20000000 03 00 ";
const PULSE: &str = "02 20000000 01 C800 28 ";
const OVER: &str = "01 20000000 00 09 ";
const LIMIT: &str = "03 20000000 01 ";
const WATCHDOG: &str = "03 20000000 02 ";

/// The marks of each record.
fn marks(bytes: &str) -> Vec<Vec<String>> {
    let marks = |line| {
        let marks = object(line).remove("marks").expect("each record has them");
        serde_json::from_value(marks).expect("a list of texts")
    };
    printed(&format!("trace --json {bytes}")).lines().map(marks).collect()
}

/// The last record alone gets a mark, and it is this one.
fn marked(bytes: &str, rule: &str) {
    let mut marks = marks(bytes);
    assert_eq!(marks.pop(), Some(vec![rule.to_owned()]), "{bytes}");
    assert!(marks.concat().is_empty(), "{bytes}: {marks:?}");
    let text = printed(&format!("trace {bytes}"));
    let last = format!("  <-- no unit writes this: {rule}\n");
    assert!(text.ends_with(&last) && text.matches("<--").count() == 1, "{text}");
}

fn not_marked(bytes: &str) {
    assert!(marks(bytes).concat().is_empty(), "{bytes}: {:?}", marks(bytes));
    assert!(!printed(&format!("trace {bytes}")).contains("<--"), "{bytes}");
}

#[test]
fn pulses() {
    let width = "a pulse's width is 10 to 500 µs";
    for (bytes, marks) in [
        ("0000", true),
        ("0100", true),
        ("0900", true),
        ("0A00", false),
        ("F401", false),
        ("F501", true),
        ("FFFF", true),
    ] {
        let record = format!("02 64000000 01 {bytes} 28");
        if marks {
            marked(&record, width);
        } else {
            not_marked(&record);
        }
    }
    let current = "a pulse's current is 1 to 127 mA";
    marked("02 64000000 01 C800 00", current);
    not_marked("02 64000000 01 C800 01");
    not_marked("02 64000000 08 C800 7F");
    marked("02 64000000 08 C800 80", current);
    marked("02 64000000 00 C800 28", "a channel is 1 to 8");
    marked("02 64000000 09 C800 28", "a channel is 1 to 8");
}

/// The answers of Init, Update, Stop and Single.
const EVER: [&str; 4] =
    ["0, 3, 4, 5 or 9", "0, 3, 4, 5, 6, 9 or 10", "0 or 3", "0, 3, 4, 7, 8, 9 or 10"];

/// In a state that no record tells, and in each of the three.
#[test]
fn answers() {
    let tripped = format!("{INIT}{WATCHDOG}");
    let [init, _, stop, _] = EVER;
    for (before, when, update, single) in [
        ("", "", EVER[1], EVER[3]),
        (STOP, " while idle", "6", "0, 3, 4, 8 or 9"),
        (INIT, " while running", "0, 3, 4, 5 or 9", "3, 4 or 7"),
        (&tripped, " while tripped", "3 or 10", "3 or 10"),
    ] {
        for (ident, listed) in [init, update, stop, single].into_iter().enumerate() {
            for answer in [0, 3, 4, 5, 6, 7, 8, 9, 10] {
                let limit = if answer == 9 { LIMIT } else { "" };
                let marks =
                    marks(&format!("{before} 01 20000000 {ident:02X} {answer:02X} {limit}"));
                let command = ["Init", "Update", "Stop", "Single"][ident];
                let rule = if has(listed, answer) {
                    None
                } else if has(EVER[ident], answer) {
                    Some(format!("{command} is answered by {listed}{when}"))
                } else {
                    Some(format!("{command} is answered by {}", EVER[ident]))
                };
                assert_eq!(marks.concat(), Vec::from_iter(rule), "{command} {answer}{when}");
            }
        }
    }
    for answer in ["01", "02", "0B", "11", "12", "FF"] {
        marked(&format!("01 20000000 00 {answer}"), "an answer is 0 or 3 to 10");
    }
    marked("01 20000000 04 00", "Ident is 0 to 3");
}

/// Whether a list of answers has this one.
fn has(listed: &str, answer: u8) -> bool {
    listed.split([' ', ',']).any(|number| number == answer.to_string())
}

#[test]
fn trips_by_a_limit() {
    not_marked(&format!("{OVER}{LIMIT}"));
    not_marked(LIMIT);
    let behind = "a unit trips by a limit directly behind an answer 9, at the same clock";
    for before in [INIT, STOP, PULSE, "01 20000000 00 03", "01 20000000 00 00"] {
        marked(&format!("{before}{LIMIT}"), behind);
    }
    let over = "directly behind an answer 9 a unit trips by a limit, at the same clock";
    marked(OVER, over);
    let each = |bytes: String| marks(&bytes);
    assert_eq!(each(format!("{OVER}03 21000000 01")), [vec![over], vec![behind]]);
    assert_eq!(each(format!("{OVER}{LIMIT}{LIMIT}")), [vec![], vec![], vec![behind]]);
    assert_eq!(each(format!("{INIT}{OVER}03 21000000 02")), [vec![], vec![over], vec![]]);
}

#[test]
fn trips_by_the_watchdog() {
    let first = "a trip by the watchdog is the first record of its clock, and not of clock 0";
    not_marked(WATCHDOG);
    not_marked(&format!("{INIT}{WATCHDOG}"));
    marked("03 00000000 02", first);
    marked(&format!("01 20000000 00 00 {WATCHDOG}"), first);
    marked(&format!("{PULSE}{WATCHDOG}"), first);
    marked(&format!("{STOP}{WATCHDOG}"), "the watchdog trips a unit while running");
    marked(&format!("{WATCHDOG}03 21000000 02"), "the watchdog trips a unit while running");
    marked("03 20000000 03", "a cause is 1 or 2");
}

/// A list's, in a tick, or a Single's.
#[test]
fn pulses_among_other_records() {
    let first = "a list's pulse is the first record of its clock, and a Single's stands directly \
                 behind its answer 0";
    let idle = "a pulse stands directly behind a Single's answer 0 while idle";
    let tripped = "no pulse is released while tripped";
    not_marked(&format!("{INIT}{PULSE}"));
    not_marked(&format!("{STOP}{SINGLE}{PULSE}"));
    not_marked(&format!("{STOP}{SINGLE}{PULSE}{SINGLE}{PULSE}"));
    marked(&format!("{PULSE}{PULSE}"), first);
    marked(&format!("{SINGLE}{PULSE}{PULSE}"), first);
    marked(&format!("01 20000000 03 08 {PULSE}"), first);
    marked(&format!("01 20000000 00 00 {PULSE}"), first);
    marked(&format!("{STOP}{PULSE}"), idle);
    marked(&format!("{STOP}{SINGLE}02 21000000 01 C800 28"), idle);
    marked(&format!("03 10000000 02 {PULSE}"), tripped);
    marked(&format!("03 10000000 02 01 11000000 03 0A {PULSE}"), tripped);
    not_marked(&format!("03 10000000 02 01 11000000 00 00 {PULSE}"));
    not_marked(&format!("03 10000000 02 01 11000000 02 00 {SINGLE}{PULSE}"));
}

#[test]
fn a_clock_that_falls() {
    marked(&format!("{PULSE}01 1F000000 00 03"), "the clock does not fall, and it was 32");
    not_marked(&format!("{PULSE}01 20000000 00 03"));
}

/// As a user reads it: the last line of a session's story.
#[test]
fn no_session_is_marked() {
    let folder = Folder::new("no_session_is_marked");
    seeded(22_000..22_100, |rng| {
        let session = sessions::session(rng);
        folder.put("s", text(&session, true));
        folder.put("p.toml", toml(&session.profile));
        let capacity = rng.gen_range(16..=60);
        let line = format!("replay s --profile p.toml --readout --capacity {capacity}");
        let story = folder.line(&line).out;
        folder.put("t", story.lines().last().expect("a readout"));
        let trace = folder.line("trace t");
        assert_eq!((trace.status, trace.err.as_str()), (0, ""));
        assert!(!trace.out.contains("<--"), "{}", trace.out);
    });
}
