//! Session files, profiles and arguments of `replay` that are bad: exit status 2, nothing printed,
//! and what is wrong, with the file and the line or the argument's name.

use crate::folder::Folder;
use std::fs;

const STOP: &str = "0 C0\n";

#[test]
fn lines_of_a_session() {
    let folder = Folder::new("lines_of_a_session");
    for (text, message) in [
        ("0 C0\n\n5 C", "s:3: \"C\" has an odd number of hex digits, and a byte has two"),
        ("0 C0 8", "s:1: \"8\" has an odd number of hex digits, and a byte has two"),
        ("# a\n0 0xC", "s:2: \"0xC\" has an odd number of hex digits, and a byte has two"),
        ("0 C0 x", "s:1: 'x' is not a hex digit"),
        ("0 C0,,C0", "s:1: ',' has no byte before it"),
        ("0 C0 :, C0", "s:1: ',' has no byte before it"),
        ("0 C0\n0 : C0", "s:2: ':' has no byte before it"),
        ("0 C0;C0", "s:1: ';' is not a hex digit"),
        ("0 C0 ending", "s:1: 'n' is not a hex digit"),
        ("0 C0 end", "s:1: 'n' is not a hex digit"),
        ("5 C0\n4 C0", "s:2: the clock goes back, from 5 to 4"),
        ("5 C0\n5 C0\n0 end", "s:3: the clock goes back, from 5 to 0"),
        ("7", "s:1: a clock alone: bytes in hex follow it, or the word end"),
        ("7 # C0", "s:1: a clock alone: bytes in hex follow it, or the word end"),
        ("7 end C0", "s:1: \"C0\" behind the word end"),
        ("7 end\n\n7 C0", "s:3: a line after the end"),
        ("7 end\n8 end", "s:2: a line after the end"),
    ] {
        folder.put("s", text);
        folder.refuses("replay s", message);
    }
}

#[test]
fn clocks() {
    let folder = Folder::new("clocks");
    for word in ["C0", "-1", "+1", "1.5", "4294967296", "1e3", "end", "µ"] {
        folder.put("s", format!("0 C0\n{word} C0\n"));
        let message = "is no clock, a whole number from 0 to 4294967295";
        folder.refuses("replay s", &format!("s:2: {word:?} {message}"));
    }
}

#[test]
fn files_that_are_none() {
    let folder = Folder::new("files_that_are_none").with("s", STOP).with("p.toml", "");
    fs::create_dir(folder.path().join("inside")).expect("the folder can be written");
    let (missing, directory) =
        ("No such file or directory (os error 2)", "Is a directory (os error 21)");
    folder.refuses("replay gone", &format!("gone: {missing}"));
    folder.refuses("replay inside", &format!("inside: {directory}"));
    folder.refuses("replay s --profile gone.toml", &format!("gone.toml: {missing}"));
    folder.refuses("replay s --profile inside", &format!("inside: {directory}"));
    folder.refuses("replay s --against gone.toml", &format!("gone.toml: {missing}"));
    folder.refuses(
        "replay s --plot gone/p.svg",
        "gone/p.svg: cannot be written: No such file or directory (os error 2)",
    );
    folder.refuses("replay s --plot inside", "inside: cannot be written: this is a directory");
}

#[test]
fn not_utf_8() {
    let folder = Folder::new("not_utf_8")
        .with("s", STOP)
        .with("latin1", b"0 C0\n1 C0 # \xB5s\n")
        .with("latin1.toml", b"# 40 \xB5s\n");
    folder.refuses("replay latin1", "latin1:2: not UTF-8, and so no text");
    folder.refuses("replay s --profile latin1.toml", "latin1.toml:1: not UTF-8, and so no text");
}

#[test]
fn profiles() {
    let folder = Folder::new("profiles").with("s", STOP);
    let keys = "currents, widths, charge, shortest_t1, watchdog";
    for (text, message) in [
        ("\nwatch = 3", &*format!(":2: \"watch\" is no key of a profile: {keys}")),
        ("charge = 1\n[widths]", ":2: invalid type: map, expected a sequence for key `widths`"),
        ("currents = [1, 2]", ":1: currents has 2 numbers, and there are eight channels"),
        (
            "currents = [1, 2, 3, 4,\n 5, 6, 7, 128]",
            ":2: currents, channel 8: 128 is out of its range, 0 to 127",
        ),
        (
            "widths = [501, 2, 3, 4, 5, 6, 7, 8]",
            ":1: widths, channel 1: 501 is out of its range, 0 to 500",
        ),
        ("charge = 63501", ":1: charge: 63501 is out of its range, 0 to 63500"),
        ("charge = -1", ":1: charge: -1 is out of its range, 0 to 63500"),
        ("\n\nshortest_t1 = 29", ":3: shortest_t1: 29 is out of its range, 30 to 10235"),
        ("watchdog = 0", ":1: watchdog: 0 is out of its range, 1 to 600000"),
        ("watchdog = 4294967296", ":1: watchdog: 4294967296 is out of its range, 1 to 600000"),
        ("watchdog =", ":1: unexpected eof encountered"),
        (
            "\nwatchdog = 2.5",
            ":2: invalid type: floating point `2.5`, expected i64 for key `watchdog`",
        ),
        ("charge = 1\ncharge = 2", ":2: charge stands in it twice"),
    ] {
        folder.put("p.toml", text);
        folder.refuses("replay s --profile p.toml", &format!("p.toml{message}"));
        folder.refuses("replay s --against p.toml", &format!("p.toml{message}"));
    }
}

/// TOML that is nested without end; and comments, of which there may be many.
#[test]
fn long_profiles() {
    let folder = Folder::new("long_profiles").with("s", STOP);
    let most = "and a profile has at most 16384";
    for nested in ["currents = [".to_owned(), "a = {a = ".to_owned(), "a.".to_owned()] {
        folder.put("p.toml", nested.repeat(16_384 / nested.len()));
        let ran = folder.line("replay s --profile p.toml");
        assert_eq!((ran.status, ran.out.as_str()), (2, ""), "{nested}");
        assert!(ran.err.starts_with("p.toml:1: "), "{}", ran.err);
    }
    for bracket in ["[", "{a="] {
        let text = "a = ".to_owned() + &bracket.repeat(16_380 / bracket.len());
        folder.put("p.toml", &text);
        assert_eq!(folder.line("replay s --profile p.toml").status, 2);
        folder.put("p.toml", text.repeat(10));
        let message = format!("p.toml: {} bytes, {most}", 10 * text.len());
        folder.refuses("replay s --profile p.toml", &message);
    }
    folder.put("p.toml", "# watchdog".repeat(1_638));
    assert_eq!(folder.line("replay s --profile p.toml").status, 0);
}

#[test]
fn arguments() {
    let folder = Folder::new("arguments").with("s", STOP).with("p.toml", "");
    for capacity in [0, 15, 4097, 1_u64 << 40] {
        let message = format!(
            "--capacity: answer 13: a ring of {capacity} bytes, where 16 to 4096 are good: ring part \
             outside the lent buffer, or its size not the box's capacity"
        );
        folder.refuses(&format!("replay s --capacity {capacity}"), &message);
    }
    for (line, message) in [
        ("replay", "error: The following required arguments were not provided:"),
        (
            "replay s --until -1",
            "error: Invalid value '-1' for '--until <CLOCK>': not a whole number from 0 to 4294967295",
        ),
        (
            "replay s --capacity -1",
            "error: Invalid value '-1' for '--capacity <N>': not a whole number from 16 to 4096",
        ),
        (
            "replay s --capacity 99999999999999999999",
            "error: Invalid value '99999999999999999999' for '--capacity <N>': not a whole number \
             from 16 to 4096",
        ),
        (
            "replay s --calls --against p.toml",
            "error: The argument '--calls' cannot be used with '--against <Q.toml>'",
        ),
        ("replay s t", "error: Found argument 't' which wasn't expected, or isn't valid in this context"),
    ] {
        let ran = folder.line(line);
        assert_eq!((ran.status, ran.out.as_str()), (2, ""), "{line}");
        assert_eq!(ran.err.lines().next(), Some(message), "{line}");
    }
}
