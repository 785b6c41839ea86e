//! `replay --against`: the lists of what only one of the units has.

use crate::folder::Folder;

const LIST: &str = "0 88 01 20 00 30 12\n5 BB 01 48 28 22 2C 1E\n300 end\n";

/// What stands between the story and demand 3's sentences.
fn differences(folder: &Folder, line: &str) -> String {
    let ran = folder.line(line);
    assert_eq!((ran.status, ran.err.as_str()), (0, ""), "{line}");
    let parts: Vec<&str> = ran.out.split("\n\n").collect();
    parts[parts.len() - 2].to_owned()
}

#[test]
fn equal_units() {
    let folder = Folder::new("equal_units").with("s", LIST).with("lax.toml", "");
    let expected = "\
Differences: 0 answers, 0 pulses, 0 trips
Answers that differ: 0
Pulses that only the first releases: 0
Pulses that only the second releases: 0
Trips that only the first has: 0
Trips that only the second has: 0";
    assert_eq!(differences(&folder, "replay s --against lax.toml"), expected);
}

/// At clock 120 an Update of 27 mA on channel 3, over the limit of the second, and one of 30 mA,
/// over both limits: both trip by a limit, and so have the same trip.
#[test]
fn one_clock_one_trip() {
    let folder = Folder::new("one_clock_one_trip")
        .with("s", "0 88 01 20 00 30 12\n120 B8 01 48 28 22 2C 1B BB 01 48 28 22 2C 1E\n200 end\n")
        .with("28.toml", "currents = [127, 127, 28, 127, 127, 127, 127, 127]")
        .with("25.toml", "currents = [127, 127, 25, 127, 127, 127, 127, 127]");
    let expected = "\
Differences: 8 answers, 0 pulses, 0 trips (clock 120)
Answers that differ: 8
  clock 120, byte 1B: the first answers 0, reply 41; the second answers 9, reply 40
  clock 120, byte BB: the first answers 1; the second answers 10, reply 40
  clock 120, byte 01: the first answers 1; the second answers 2
  clock 120, byte 48: the first answers 1; the second answers 2
  clock 120, byte 28: the first answers 1; the second answers 2
  clock 120, byte 22: the first answers 1; the second answers 2
  clock 120, byte 2C: the first answers 1; the second answers 2
  clock 120, byte 1E: the first answers 9, reply 40; the second answers 2
Pulses that only the first releases: 0
Pulses that only the second releases: 0
Trips that only the first has: 0
Trips that only the second has: 0";
    assert_eq!(differences(&folder, "replay s --profile 28.toml --against 25.toml"), expected);
}

/// The second's watchdog trips at the clock at which the first trips by a limit.
#[test]
fn trips_of_other_causes() {
    let folder = Folder::new("trips_of_other_causes")
        .with("s", "0 88 01 20 00 30 12\n120 BB 01 48 28 22 2C 1E\n200 end\n")
        .with("limit.toml", "currents = [127, 127, 25, 127, 127, 127, 127, 127]")
        .with("watchdog.toml", "watchdog = 120");
    let report = differences(&folder, "replay s --profile limit.toml --against watchdog.toml");
    assert!(report.starts_with("Differences: 7 answers, 0 pulses, 2 trips (clock 120)\n"));
    let trips = "
Trips that only the first has: 1
  clock 120: limit
Trips that only the second has: 1
  clock 120: watchdog";
    assert!(report.ends_with(trips), "{report}");
}

/// Of each list the first twenty are shown, or all.
#[test]
fn long_lists() {
    let folder = Folder::new("long_lists")
        .with("s", "0 88 01 20 00 30 12\n5 BB 01 48 28 22 2C 1E\n100099 end\n")
        .with("strict.toml", "currents = [127, 127, 25, 127, 127, 127, 127, 127]");
    let few = differences(&folder, "replay s --against strict.toml");
    let all = differences(&folder, "replay s --against strict.toml --all");
    assert!(few.starts_with("Differences: 1 answer, 3,000 pulses, 1 trip (clock 5 to 100045)\n"));
    let pulses = |report: &str| -> Vec<String> {
        let from = report.find("Pulses that only the first releases: 3,000\n").expect("the list");
        let list = report[from..].lines().skip(1).take_while(|line| line.starts_with("  "));
        list.map(str::to_owned).collect()
    };
    let (few, all) = (pulses(&few), pulses(&all));
    assert_eq!((all.len(), &few[..20]), (3_000, &all[..20]));
    assert_eq!(few[20..], ["  .. and 2,980 more (--all shows them)"]);
    assert_eq!(all.last().map(String::as_str), Some("  clock 100045: channel 3, 300 µs, 30 mA"));
    let ran = folder.line("replay s --all");
    assert_eq!((ran.status, ran.out.as_str()), (2, ""));
    assert!(ran.err.contains("--against <Q.toml>"), "{}", ran.err);
}
