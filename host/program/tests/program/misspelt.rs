//! Words that the program does not understand: exit status 2, nothing printed, and a message that
//! names the argument and says what is wrong.

use crate::run;

fn first_line(words: &[&str], message: &str) {
    let ran = run::words(words);
    assert_eq!((ran.status, ran.out.as_str()), (2, ""), "{words:?}");
    assert_eq!(ran.err.lines().next(), Some(message), "{words:?}");
}

/// The value is not one of the argument's.
fn invalid(words: &[&str], value: &str, argument: &str, why: &str) {
    first_line(words, &format!("error: Invalid value '{value}' for '{argument}': {why}"));
}

/// The arguments named are left out.
fn left_out(words: &str, arguments: &[&str]) {
    let words: Vec<&str> = words.split_whitespace().collect();
    first_line(&words, "error: The following required arguments were not provided:");
    let err = run::words(&words).err;
    let named: Vec<&str> =
        err.lines().skip(1).take_while(|line| !line.is_empty()).map(str::trim).collect();
    assert_eq!(named, arguments, "{words:?}");
}

/// A word that is not hex.
fn not_hex(words: &[&str], word: &str, why: &str) {
    let line = format!("<HEX>...: {word:?} is not bytes in hex ({why})");
    first_line(&[&["read"], words].concat(), &line);
}

#[test]
fn bytes_that_are_not_hex() {
    for (word, digit) in [
        ("XY", 'X'),
        ("0xE2x21", 'x'),
        ("0xE20x21", 'x'),
        ("x0E2", 'x'),
        ("E2;21", ';'),
        ("E2 2G", 'G'),
        ("E2-21", '-'),
        ("µ", 'µ'),
    ] {
        not_hex(&["E2", word], word, &format!("'{digit}' is not a hex digit"));
    }
    for (word, mark) in [
        (",E2", ','),
        (":", ':'),
        ("E2,,21", ','),
        ("E2, ,21", ','),
        ("E2,:21", ':'),
        ("E2,21,,", ','),
    ] {
        not_hex(&[word], word, &format!("'{mark}' has no byte before it"));
    }
    not_hex(&["E2,", ",21"], ",21", "',' has no byte before it");
    for word in ["0x", "E2,0X", "0x 21"] {
        let prefix = if word.contains('X') { "0X" } else { "0x" };
        not_hex(&[word], word, &format!("{prefix:?} has no hex digits behind it"));
    }
}

#[test]
fn an_odd_number_of_hex_digits() {
    for (word, part) in [
        ("E", "E"),
        ("E22", "E22"),
        ("E2 2", "2"),
        ("E 2", "E"),
        ("0xE", "0xE"),
        ("0xE2,0x2", "0x2"),
        ("E2:2:48", "2"),
        ("E,2", "E"),
    ] {
        let why = format!("{part:?} has an odd number of hex digits, and a byte has two");
        not_hex(&[word], word, &why);
        not_hex(&["C0", word], word, &why);
    }
}

#[test]
fn no_bytes() {
    left_out("read", &["<HEX>..."]);
    left_out("read --channels 2", &["<HEX>..."]);
    left_out("trace", &["<HEX>..."]);
    for word in ["", " ", "\n"] {
        not_hex(&[word], word, "no hex digits");
        not_hex(&["C0", word], word, "no hex digits");
    }
}

/// Every number that is given by a name, on a line that is right without the number's own value. What
/// its type cannot hold is refused with the range that the library's refusals name.
#[test]
fn numbers_out_of_their_type() {
    let single = ["write", "single", "--channel", "3", "--width", "200", "--current", "120"];
    let init = [
        "write",
        "init",
        "--channels",
        "1,3",
        "--group-time",
        "3",
        "--main-time",
        "18",
        "--skips",
        "0",
    ];
    let read = ["read", "C0", "--channels", "1"];
    let numbers: [(&[&str], &str, &str, &str, &str); 7] = [
        (&read, "--channels", "N", "256", "a list has 1 to 8 channels"),
        (&single, "--channel", "N", "256", "a channel is 1 to 8 (Channel_Number 0 to 7)"),
        (&single, "--width", "MICROSECONDS", "65536", "a width is 0 or 10 to 500 µs"),
        (&single, "--current", "MILLIAMPS", "256", "a current is 0 to 127 mA"),
        (&init, "--group-time", "G", "256", "Group_Time is 3 to 29 (t2 from 3.0 to 16.0 ms)"),
        (&init, "--main-time", "M", "65536", "Main_Time is 4 to 2045 (t1 from 3.0 to 1023.5 ms)"),
        (&init, "--skips", "N", "256", "N_Factor is 0 to 7"),
    ];
    for (line, name, value_name, above, rule) in numbers {
        assert_eq!(run::words(line).status, 0);
        let place = 1 + line.iter().position(|word| *word == name).expect("the line has it");
        for value in [above, "-1", "-70000", "+1", "", "x", "3.5", "1e2", "0x10"] {
            let mut line = line.to_vec();
            line[place] = value;
            let argument = format!("{name} <{value_name}>");
            invalid(&line, value, &argument, &format!("not a good whole number: {rule}"));
        }
    }
    let (zero, rule) = (&["--channel", "0"], "a channel is 1 to 8 (Channel_Number 0 to 7)");
    let why = format!("not a good whole number: {rule}");
    invalid(&[&single[..2], zero, &single[4..]].concat(), "0", "--channel <N>", &why);
}

/// Counts have no range but their type's.
#[test]
fn counts() {
    let why = "not a whole number from 0 to 18446744073709551615";
    for value in ["-1", "18446744073709551616", "x"] {
        invalid(&["soak", "--calls", value], value, "--calls <N>", why);
        invalid(&["soak", "--seed", value], value, "--seed <SEED>", why);
    }
}

#[test]
fn lists_of_channels() {
    let spelt = "a list is spelt as 1,3 or 1-4,7";
    for name in ["--channels", "--low-frequency"] {
        let write = |list| {
            let mut words = vec!["write", "init", "--group-time", "3", "--main-time", "18"];
            if name != "--channels" {
                words.extend(["--channels", "1"]);
            }
            words.extend([name, list]);
            words
        };
        let argument = format!("{name} <LIST>");
        assert_eq!(run::words(&write("1,3")).status, 0);
        for (list, word) in [
            ("0", "0"),
            ("1,9", "9"),
            ("256", "256"),
            ("-1", "-1"),
            ("", ""),
            ("1,", ""),
            ("1, 3", " 3"),
            ("+1", "+1"),
            ("one", "one"),
            ("0-4", "0-4"),
            ("1,7-9", "7-9"),
            ("1-", "1-"),
            ("1-2-3", "1-2-3"),
            ("1--3", "1--3"),
            ("1 - 3", "1 - 3"),
        ] {
            let why =
                format!("{word:?} is not a channel from 1 to 8, nor a range of them; {spelt}");
            invalid(&write(list), list, &argument, &why);
        }
        for (list, word) in [("4-1", "4-1"), ("1,8-7", "8-7")] {
            let why = format!("{word:?} falls, and a range rises; {spelt}");
            invalid(&write(list), list, &argument, &why);
        }
        for (list, twice) in [("1,3,1", 1), ("1-4,3", 3), ("2,1-8", 2), ("1-3,3-5", 3)] {
            invalid(&write(list), list, &argument, &format!("channel {twice} stands in it twice"));
        }
    }
}

#[test]
fn settings_of_an_update() {
    let argument = "<[CHANNEL:]MODE:WIDTH:CURRENT>...";
    for word in ["", "0", "0:200", "1:0:200:40:1", "-1"] {
        let why = "not spelt as [CHANNEL:]MODE:WIDTH:CURRENT";
        invalid(&["write", "update", "0:200:40", word], word, argument, why);
    }
    let (mode, width) = ("Mode is 0, 1 or 2", "a width is 0 or 10 to 500 µs");
    let current = "a current is 0 to 127 mA";
    for (word, name, part, rule) in [
        ("256:200:40", "mode", "256", mode),
        (":200:40", "mode", "", mode),
        ("0:65536:40", "width", "65536", width),
        ("0:-1:40", "width", "-1", width),
        ("0:200:256", "current", "256", current),
        ("0:200:4O", "current", "4O", current),
        ("1:0:200:256", "current", "256", current),
    ] {
        let why = format!("the {name} {part:?} is not a good whole number: {rule}");
        invalid(&["write", "update", word], word, argument, &why);
    }
    for (word, channel) in [("0:0:200:40", "0"), ("9:0:200:40", "9"), (":0:200:40", "")] {
        let why = format!("the channel {channel:?} is not one from 1 to 8");
        invalid(&["write", "update", word], word, argument, &why);
    }
}

#[test]
fn channels_of_an_update() {
    let update = |settings: &[&str], what: &str| {
        let message = format!("<[CHANNEL:]MODE:WIDTH:CURRENT>...: {what}");
        first_line(&[&["write", "update"], settings].concat(), &message);
    };
    let falls = "channel 1 behind channel 3, and the lowest stands first";
    update(&["3:0:200:40", "1:0:200:40"], falls);
    update(&["1:0:0:0", "3:0:0:0", "3:0:0:0"], &falls.replace("channel 1", "channel 3"));
    let mixed = "either all settings have their channel or none has";
    update(&["1:0:200:40", "0:200:40"], mixed);
    update(&["0:200:40", "1:0:200:40"], mixed);
}

#[test]
fn arguments_left_out() {
    left_out("write single", &["--channel <N>", "--width <MICROSECONDS>", "--current <MILLIAMPS>"]);
    left_out("write single --channel 3 --width 200", &["--current <MILLIAMPS>"]);
    left_out("write init", &["--channels <LIST>", "--group-time <G>", "--main-time <M>"]);
    left_out("write update", &["<[CHANNEL:]MODE:WIDTH:CURRENT>..."]);
}

#[test]
fn words_of_no_meaning() {
    first_line(&["melt"], "error: The subcommand 'melt' wasn't recognized");
    first_line(&["write", "halt"], "error: The subcommand 'halt' wasn't recognized");
    for words in [["write", "stop", "now"], ["read", "C0", "--loud"]] {
        let message = format!(
            "error: Found argument '{}' which wasn't expected, or isn't valid in this context",
            words[2]
        );
        first_line(&words, &message);
    }
}
