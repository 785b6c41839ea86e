//! The lessons: a wrong unit beside the proved one.

use crate::folder::Folder;
use crate::run;
use std::fs;
use std::path::{Path, PathBuf};

const LESSONS: [&str; 4] = ["ring", "fields", "limits", "charge"];

/// What a lesson prints, with one space for any number of them.
fn lesson(name: &str) -> Vec<String> {
    let ran = run::words(&["lesson", name]);
    assert_eq!((ran.status, ran.err.as_str()), (0, ""), "{name}");
    ran.out.lines().map(words).collect()
}

fn words(line: &str) -> String {
    line.split_whitespace().collect::<Vec<&str>>().join(" ")
}

/// These lines are printed in this order, with others between them.
fn has(name: &str, lines: &[&str]) {
    let printed = lesson(name);
    let mut rest = printed.iter();
    for line in lines {
        assert!(rest.any(|other| other == line), "{name} lacks {line:?} in {printed:#?}");
    }
}

fn repository() -> PathBuf {
    Path::new(env!("CARGO_MANIFEST_DIR")).join("../..")
}

#[test]
fn ring_the_stop_is_lost() {
    let [pulse_1, pulse_3] =
        ["pulse on channel 1: 200 µs, 40 mA", "pulse on channel 3: 300 µs, 30 mA"];
    let both = |time: &str, pulse: &str| format!("{time} {pulse} {pulse}");
    let wrong = |time: &str, pulse: &str| format!("{time} {pulse} differ");
    let printed = lesson("ring");
    let from = printed.iter().position(|line| *line == both("100 10.0", pulse_1));
    let from = from.expect("the first pulse is told");
    assert_eq!(
        printed[from..from + 16],
        [
            both("100 10.0", pulse_1),
            both("115 11.5", pulse_3),
            both("145 14.5", pulse_3),
            both("200 20.0", pulse_1),
            both("215 21.5", pulse_3),
            both("245 24.5", pulse_3),
            "250 25.0 > C0 Stop".to_owned(),
            "stray byte 03, answer 2 answer 0: command carried out, reply 81 differ".to_owned(),
            wrong("300 30.0", pulse_1),
            wrong("315 31.5", pulse_3),
            wrong("345 34.5", pulse_3),
            wrong("400 40.0", pulse_1),
            wrong("415 41.5", pulse_3),
            wrong("445 44.5", pulse_3),
            String::new(),
            "wrong: running at clock 450; commands 2, pulses 12, trips 0".to_owned(),
        ]
    );
    assert_eq!(printed[from + 16], "proved: idle at clock 450; commands 3, pulses 6, trips 0");
}

#[test]
fn ring_the_memory() {
    has(
        "ring",
        &[
            "byte 27 28 29 30 31 | 32 33 34 35 0 1 2 3",
            "wrong, clock 240 00 03 2C 01 1E | C0 00 00 00 02 91 00 00",
            "wrong, clock 245 02 F5 00 00 00 | 03 2C 01 1E 02 91 00 00",
            "proved, clock 240 00 03 2C 01 1E | C0 00 00 00 02 91 00 00",
            "proved, clock 245 02 F5 00 00 00 | C0 00 00 00 03 2C 01 1E",
        ],
    );
}

#[test]
fn fields_the_clock_as_a_current() {
    has(
        "fields",
        &[
            "record by the guess by document 01",
            "02 F3 98 00 00 03 2C 01 1E channel 3: 0 µs, 39155 mA clock 39155, channel 3: 300 µs, 30 mA",
            "02 EA 9C 00 00 01 C8 00 28 channel 1: 0 µs, 40170 mA clock 40170, channel 1: 200 µs, 40 mA",
            "02 F9 9C 00 00 03 2C 01 1E channel 3: 0 µs, 40185 mA clock 40185, channel 3: 300 µs, 30 mA",
            "02 F0 A0 00 00 01 C8 00 28 channel 1: 0 µs, 41200 mA clock 41200, channel 1: 200 µs, 40 mA",
            "",
            "The trace has 79 pulses. Read by document 01, 79 are what the unit",
        ],
    );
}

#[test]
fn limits_pulses_where_the_lax_one_is_silent() {
    let answers = "answer 0: command carried out, reply 41 answer 9: over a limit, reply 40 differ";
    has(
        "limits",
        &[
            "clock ms lax wrong strict",
            "150 15.0 > BC 01 48 00 03 74 00 Update: channel 1 single pulse 200 µs 0 mA;",
            "channel 3 single pulse 500 µs 0 mA",
            answers,
            "channel 3: 500 µs is above its limit of",
            "300 µs",
            "200 20.0 pulse on channel 1: 200 µs, 40 mA differ",
            "215 21.5 pulse on channel 3: 300 µs, 30 mA differ",
            "245 24.5 pulse on channel 3: 300 µs, 30 mA differ",
            "",
            "lax: running at clock 250; commands 3, pulses 3, trips 0",
            "wrong strict: running at clock 250; commands 3, pulses 6, trips 0",
            "- Each pulse of wrong strict is released by lax too, same clock, channel, width, current:",
            "NOT HELD, first at clock 200",
            "clock ms lax proved strict",
            answers,
            "channel 3: 500 µs is above its limit of",
            "300 µs",
            "TRIP, cause: limit differ",
            "lax: running at clock 250; commands 3, pulses 3, trips 0",
            "proved strict: tripped at clock 250; commands 3, pulses 3, trips 1",
            "- Each pulse of proved strict is released by lax too, same clock, channel, width, current:",
            "held (3 pulses)",
        ],
    );
}

#[test]
fn charge_that_stays_behind() {
    has(
        "charge",
        &[
            "pulse by the wrong test net charge by the library",
            "250:20 100:0 200:-20 balanced 2,000 half mA µs = 1,000 nC refused, answer 4",
            "250:20 100:0 250:-20 balanced 0 written",
            "250:20 2000:-2.5 not balanced 0 written",
        ],
    );
}

/// A lesson begins with the mistake, and the code that it prints is the file that it runs.
#[test]
fn the_code_is_the_files() {
    for name in LESSONS {
        let file = format!("host/program/src/lesson/wrong/{name}.rs");
        let code = fs::read_to_string(repository().join(file)).expect("the wrong code has a file");
        let code: Vec<String> = code.lines().map(|line| format!("    {line}")).collect();
        let ran = run::words(&["lesson", name]);
        let printed = ran.out.lines().skip_while(|line| !line.starts_with("    //!"));
        let printed: Vec<&str> = printed.take(code.len()).collect();
        assert_eq!(printed, code.iter().map(|line| line.trim_end()).collect::<Vec<&str>>());
        assert!(ran.out.starts_with(&format!("Lesson {name}\n\nThe mistake: ")), "{name}");
    }
}

/// The rules are the documents' sentences.
#[test]
fn the_rules() {
    let rules = [
        ("ring", "round at the part's end. Each new record first drops old ones until it fits,"),
        ("ring", "moving the start past them; other bytes stay. What is proved:"),
        ("fields", "02: clock 4, channel 1 (1 to 8), width 2, current 1"),
        ("fields", "A record is known by its kind byte alone. What is proved:"),
        ("limits", "It is over a limit if one channel's current, width or charge is."),
        ("limits", "a trip keeps holds and the partial frame. What is proved:"),
        (
            "charge",
            "The rule, in document 02's words: Report the net charge of a pulse as a signed sum",
        ),
        (
            "charge",
            "refuse to write one whose net charge is not zero, also with 4. What is proved:",
        ),
    ];
    for (name, rule) in rules {
        assert!(words(&lesson(name).join(" ")).contains(rule), "{name}: {rule}");
    }
}

/// Each theorem that a lesson names is proved in the file that it names.
#[test]
fn the_theorems() {
    let wanted = [
        ("ring", ["demand1", "calls_keep", "ring_holds_tail"]),
        ("fields", ["demand2", "split_is_row", "claim"]),
        ("limits", ["demand3", "always_zeros", "quiet_at_rest"]),
        ("charge", ["no_charge", "bounded", "order_free"]),
    ];
    for (lesson_name, theorems) in wanted {
        let printed = lesson(lesson_name);
        let cited: Vec<(&str, &str)> = printed
            .iter()
            .filter_map(|line| line.strip_suffix(':')?.split_once(" in crates/"))
            .collect();
        assert_eq!(cited.iter().map(|(name, _)| *name).collect::<Vec<&str>>(), theorems);
        for (name, file) in cited {
            let proofs = fs::read_to_string(repository().join("crates").join(file));
            let proofs = proofs.unwrap_or_else(|error| panic!("{file}: {error}"));
            let stated = format!("pub {name} : ");
            assert!(proofs.lines().any(|line| line.starts_with(&stated)), "{name} in {file}");
        }
    }
}

/// The picture is written, and nothing else; what is printed is the same.
#[test]
fn plots() {
    for name in LESSONS {
        let folder = Folder::new(&format!("plot of {name}"));
        let ran = folder.line(&format!("lesson {name} --plot {name}.svg"));
        assert_eq!((ran.status, ran.err.as_str()), (0, ""), "{name}");
        assert_eq!(ran.out, run::words(&["lesson", name]).out, "{name}");
        assert_eq!(folder.names(), [format!("{name}.svg")]);
        assert!(folder.text(&format!("{name}.svg")).starts_with("<svg"), "{name}");
    }
}

/// A path at which no picture can be written is refused before anything is printed.
#[test]
fn plots_refused() {
    let folder = Folder::new("lesson plots refused");
    for name in LESSONS {
        let missing = "none/l.svg: cannot be written: No such file or directory (os error 2)";
        folder.refuses(&format!("lesson {name} --plot none/l.svg"), missing);
        let none = "..: cannot be written: this is a directory";
        folder.refuses(&format!("lesson {name} --plot .."), none);
    }
}

#[test]
fn misspelt() {
    for words in ["lesson", "lesson rings", "lesson ring fields", "lesson ring --plot"] {
        let ran = run::line(words);
        assert_eq!((ran.status, ran.out.as_str()), (2, ""), "{words}");
    }
}
