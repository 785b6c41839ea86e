//! `replay --events` and `replay --json`: a line for each event.

use crate::folder::Folder;
use crate::run;
use crate::table::{object, Table};
use serde_json::{json, Value};
use std::ffi::OsStr;
use std::fs;
use std::os::unix::ffi::OsStrExt;
use std::path::PathBuf;

/// Document 01's case 12, with a stray byte, a dropped frame, a wrong check and an unfinished frame.
const SESSION: &str = "\
0 88 01 20 00 30 12
5 BB 01 48 28 22 2C 1E
6 7F E2 21 C1
120 88 01
";

const LINES: &str = "\
clock,ms,unit,event,bytes,command,command_words,answer,answer_words,reply,reason,channel,width_us,\
current_ma,cause,cause_words,state,commands,pulses,trips,readout
0,0.0,unit,command,88 01 20 00 30 12,Init,\"Init: channels 1, 3, t1 10.0 ms, t2 3.0 ms\",0,\
command carried out,01,,,,,,,running,,,,
5,0.5,unit,command,BB 01 48 28 22 2C 1E,Update,\
Update: channel 1 single pulse 200 µs 40 mA; channel 3 doublet 300 µs 30 mA,0,\
command carried out,41,,,,,,,running,,,,
6,0.6,unit,stray,7F,,,2,\"low byte, no frame open\",,,,,,,,running,,,,
6,0.6,unit,dropped,E2 21,Single,,,,,,,,,,,running,,,,
6,0.6,unit,command,C1,Stop,Stop,3,wrong check,80,\
\"the check is 0, the frame says 1\",,,,,,running,,,,
100,10.0,unit,pulse,,,,,,,,1,200,40,,,running,,,,
115,11.5,unit,trip,,,,,,,,,,,2,watchdog,tripped,,,,
120,12.0,unit,unfinished,88 01,Init,,,,,,,,,,,tripped,,,,
120,12.0,unit,end,,,,,,,,,,,,,tripped,3,1,1,
";

fn folder(name: &str) -> Folder {
    Folder::new(name).with("s", SESSION).with("p.toml", "watchdog = 110\n")
}

#[test]
fn every_event() {
    let folder = folder("every_event");
    let story = folder.line("replay s --profile p.toml").out;
    assert_eq!(folder.line("replay s --profile p.toml --events e.csv").out, story);
    assert_eq!(folder.text("e.csv"), LINES);
    assert_eq!(folder.names(), ["e.csv", "p.toml", "s"]);
}

/// They stand behind what is printed.
#[test]
fn on_standard_output() {
    let folder = folder("events_on_standard_output");
    let story = folder.line("replay s --profile p.toml").out;
    let ran = folder.line("replay s --profile p.toml --events /dev/stdout");
    assert_eq!((ran.status, ran.out), (0, story + LINES));
}

/// The report of two units is the last line.
#[test]
fn differences() {
    let folder = folder("differences_as_json");
    let last = |line: &str| -> Value {
        let ran = folder.line(line);
        assert_eq!((ran.status, ran.err.as_str()), (0, ""));
        object(ran.out.lines().last().expect("a line")).into()
    };
    let strict = json!({
        "event": "differences", "answers": 0, "pulses_only_first": 1, "pulses_only_second": 0,
        "trips_only_first": 0, "trips_only_second": 1, "from_clock": 115, "to_clock": 115,
        "looser": null, "sentence_1_broken_at": null, "sentence_2_broken_at": null,
    });
    assert_eq!(last("replay s --against p.toml --json"), strict);
    folder.put("lax.toml", "");
    let looser = last("replay s --profile p.toml --against lax.toml --json");
    assert_eq!(looser["looser"], "the watchdog is 600000, the other's 110");
    assert_eq!([&looser["sentence_1_broken_at"], &looser["pulses_only_second"]], [115, 1]);
}

/// Numbers are numbers, what there is not is null, and bytes are hex.
#[test]
fn as_json() {
    let folder = folder("as_json");
    let ran = folder.line("replay s --profile p.toml --json --readout");
    assert_eq!((ran.status, ran.err.as_str()), (0, ""));
    let lines: Vec<Value> = ran.out.lines().map(|line| object(line).into()).collect();
    assert_eq!(lines.len(), 9);
    assert_eq!(
        lines[5],
        json!({
            "clock": 100, "ms": 10.0, "unit": "unit", "event": "pulse", "bytes": null,
            "command": null, "command_words": null, "answer": null, "answer_words": null,
            "reply": null, "reason": null, "channel": 1, "width_us": 200, "current_ma": 40,
            "cause": null, "cause_words": null, "state": "running", "commands": null,
            "pulses": null, "trips": null, "readout": null,
        })
    );
    let end = &lines[8];
    assert_eq!([&end["commands"], &end["pulses"], &end["trips"]], [3, 1, 1]);
    let story = folder.line("replay s --profile p.toml --readout").out;
    assert_eq!(end["readout"], story.lines().last().expect("a readout"));
}

/// Spaces, commas, quotes, line ends, hyphens, and bytes that are no text.
#[test]
fn odd_names() {
    let folder = folder("odd_names_of_events");
    for name in [b"day 1, \"a\"", &b"\xB5s\n1"[..], b"-", "µ=1;2#".as_bytes()] {
        let path =
            |end: &str| PathBuf::from(OsStr::from_bytes(&[b"./", name, end.as_bytes()].concat()));
        fs::write(folder.path().join(path(".session")), SESSION)
            .expect("the folder can be written");
        let mut words = ["replay", "--profile", "p.toml", "--events"].map(PathBuf::from).to_vec();
        words.extend([path(".csv"), path(".session")]);
        let ran = run::words_in(folder.path(), &words);
        assert_eq!((ran.status, ran.err.as_str()), (0, ""), "{words:?}");
        let csv = fs::read_to_string(folder.path().join(path(".csv"))).expect("the file is there");
        assert_eq!(csv, LINES, "{words:?}");
    }
}

/// Bad input leaves a file of before as it was; a new one replaces it.
#[test]
fn whole_or_not_at_all() {
    let folder = folder("whole_events").with("e.csv", "before").with("bad", "5 C0\n4 C0\n");
    folder.refuses("replay bad --events e.csv", "bad:2: the clock goes back, from 5 to 4");
    folder.refuses(
        "replay s --events gone/e.csv",
        "gone/e.csv: cannot be written: No such file or directory (os error 2)",
    );
    assert_eq!(folder.text("e.csv"), "before");
    assert_eq!(folder.line("replay s --events e.csv").status, 0);
    assert!(folder.text("e.csv").starts_with("clock,"));
    assert_eq!(folder.names(), ["bad", "e.csv", "p.toml", "s"]);
}

#[test]
fn json_or_calls() {
    let ran = folder("json_or_calls").line("replay s --json --calls");
    assert_eq!((ran.status, ran.out.as_str()), (2, ""));
    let message = "error: The argument '--json' cannot be used with '--calls'";
    assert_eq!(ran.err.lines().next(), Some(message));
}

#[test]
fn nothing_sent() {
    let folder = Folder::new("no_events").with("s", "# nothing\n");
    assert_eq!(folder.line("replay s --events e.csv").status, 0);
    let table = Table::of_csv(&folder.text("e.csv"));
    assert_eq!(table.rows.len(), 1);
    let cells = table.cells(0, "clock ms unit event state commands pulses trips readout");
    assert_eq!(cells, ["0", "0.0", "unit", "end", "idle", "0", "0", "0", ""]);
}
