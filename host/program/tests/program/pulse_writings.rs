//! `packet write rehamove3`: ways to spell a command, values that are not good, and net charges.

use crate::pulses::{CONFIG, INIT, STOP};
use crate::run::{self, bad, prints};
use independent::rehamove3::{ChannelConfig, Command, Point};

/// The line that has the program write this command.
pub fn spelt(number: u8, command: Command) -> String {
    let words = match command {
        Command::LlInit { voltage } => format!("ll-init --voltage {voltage}"),
        Command::LlInitAck { result } => format!("ll-init-ack --result {result}"),
        Command::LlChannelConfig(ChannelConfig { execution, channel, pulse }) => {
            let execution = ["--no-stimulation", "--execute"][usize::from(execution)];
            let points: String = pulse.used().iter().map(point).collect();
            format!("ll-channel-config --channel {channel} {execution}{points}")
        }
        Command::LlChannelConfigAck { result, electrode } => {
            format!("ll-channel-config-ack --result {result} --electrode-error-channel {electrode}")
        }
        Command::LlStop => "ll-stop".to_owned(),
        Command::LlStopAck { result } => format!("ll-stop-ack --result {result}"),
        Command::Other { number } => panic!("command {number} is not written"),
    };
    format!("packet write rehamove3 {words} --packet {number}")
}

fn point(point: &Point) -> String {
    format!(" --point {}:{}", point.duration, (f64::from(point.code) - 300.0) / 2.0)
}

fn writes(words: &str, bytes: &str) {
    prints(&format!("packet write rehamove3 {words}"), &[bytes]);
}

fn invalid(words: &str, value: &str, argument: &str, why: &str) {
    run::invalid(&format!("packet write rehamove3 {words}"), value, argument, why);
}

/// Source 002, section 7.1.
#[test]
fn the_papers_examples() {
    writes("ll-init", INIT);
    let points = "--point 250:20 --point 100:0 --point 250:-20";
    writes(&format!("ll-channel-config --channel red --execute --packet 1 {points}"), CONFIG);
    writes("ll-stop --packet 2", STOP);
}

#[test]
fn commands() {
    writes("--number 2 ll-stop", STOP);
    writes("ll-init --voltage 5 --packet 1", "F0 81 55 81 58 81 28 81 DF 04 00 0A 0F");
    writes("ll-init-ack --result 11 --packet 63", "F0 81 55 81 58 81 41 81 3C FC 01 0B 0F");
    writes(
        "ll-channel-config-ack --result 10 --electrode-error-channel 1 --packet 1",
        "F0 81 55 81 5B 81 39 81 1E 04 03 0A 01 0F",
    );
    writes(
        "ll-channel-config-ack --result 0 --electrode-error-channel 240 --packet 1",
        "F0 81 55 81 5A 81 8A 81 69 04 03 00 81 A5 0F",
    );
    writes("ll-stop-ack --result 0 --packet 2", "F0 81 55 81 58 81 03 81 01 08 05 00 0F");
}

#[test]
fn values_by_their_words() {
    let same = |one: &str, other: &str| {
        let [one, other] =
            [one, other].map(|words| run::printed(&format!("packet write rehamove3 {words}")));
        assert_eq!(one, other);
    };
    for (number, word) in
        [(0, "standard"), (1, "off"), (2, "30V"), (3, "60V"), (4, "90V"), (5, "120V"), (6, "150V")]
    {
        same(&format!("ll-init --voltage {word}"), &format!("ll-init --voltage {number}"));
    }
    for (number, word) in [
        (0, "no-error"),
        (1, "transfer-error"),
        (2, "parameter-error"),
        (4, "stimulation-timeout"),
        (7, "not-initialized"),
        (10, "electrode-error"),
        (11, "unknown-command"),
    ] {
        same(&format!("ll-init-ack --result {word}"), &format!("ll-init-ack --result {number}"));
    }
    for (number, word) in [(0, "red"), (1, "blue"), (2, "black"), (3, "white")] {
        let config = "ll-channel-config --no-stimulation --point 1:0 --channel";
        same(&format!("{config} {word}"), &format!("{config} {number}"));
        let ack = "ll-channel-config-ack --result 10 --electrode-error-channel";
        same(&format!("{ack} {word}"), &format!("{ack} {number}"));
    }
}

#[test]
fn currents() {
    let config = "ll-channel-config --channel red --execute --packet 1";
    let bytes = "F0 81 55 81 43 81 B2 81 95 04 02 81 D4 00 A5 54 00 00 A4 0C 00 0F";
    for (one, other) in
        [("10:20.5", "10:-20.5"), ("10:20.50", "10:-20.500000"), ("010:020.5", "10:-20.5")]
    {
        writes(&format!("{config} --point {one} --point {other}"), bytes);
    }
    let zero = "F0 81 55 81 44 81 42 81 52 04 02 80 00 A4 B0 00 0F";
    for point in ["10:0", "10:-0", "10:0.0"] {
        writes(&format!("{config} --point {point}"), zero);
    }
}

#[test]
fn points_that_are_none() {
    let (duration, current) = (
        "Duration is 0 to 4095 µs (source 002, section 4.2)",
        "Current is coded 40 to 560, -130.0 to 130.0 mA (document 02, request 13)",
    );
    let refused = |value: &str, why: &str| {
        let line = format!("ll-channel-config --channel red --execute --point {value}");
        invalid(&line, value, "--point <DURATION:MILLIAMPS>", why);
    };
    for value in ["250", "x", "-", "250;20"] {
        refused(value, "not spelt as DURATION:MILLIAMPS, as 250:20 or 250:-20.5");
    }
    for (value, word) in [("-5:20", "-5"), (":20", ""), ("2.5:20", "2.5"), ("65536:0", "65536")] {
        refused(value, &format!("the duration {word:?} is not a good whole number: {duration}"));
    }
    for word in ["", "x", "+20", "--20", "20.", ".5", "1e2", "20mA", "200.3", "20000", "1:2"] {
        refused(
            &format!("250:{word}"),
            &format!(
                "the current {word:?} is no number of milliamps, as 20, -20 or 20.5: {current}"
            ),
        );
    }
    for (word, why) in [
        ("20.3", "20.0 mA is coded 340, 20.5 mA is coded 341"),
        ("-20.3", "-20.5 mA is coded 259, -20.0 mA is coded 260"),
        ("-0.25", "-0.5 mA is coded 299, 0.0 mA is coded 300"),
        ("129.999999", "129.5 mA is coded 559, 130.0 mA is coded 560"),
    ] {
        refused(&format!("250:{word}"), &format!("the current {word:?} cannot be coded: {why}"));
    }
}

/// What a type can hold is the library's to refuse.
#[test]
fn values_that_are_not_good() {
    let refused = "is not good (answer 4: value not good, or a command that is not written)";
    let config = "ll-channel-config --execute --channel";
    let current = "Current is coded 40 to 560, -130.0 to 130.0 mA (document 02, request 13)";
    let result = "Result is 0, 1, 2, 4, 7, 10 or 11 (source 002, section 6)";
    let seventeen = " --point 1:0".repeat(17);
    for (words, named, rule) in [
        (
            "ll-stop --packet 64",
            "--packet: 64",
            "Packet number is 0 to 63 (source 002, section 2.2)",
        ),
        ("ll-init --voltage 7", "--voltage: 7", "High Voltage is 0 to 6 (source 002, section 4.2)"),
        ("ll-init-ack --result 3", "--result: 3", result),
        ("ll-stop-ack --result 255", "--result: 255", result),
        ("ll-channel-config-ack --result 12", "--result: 12", result),
        (
            "ll-channel-config-ack --result 10 --electrode-error-channel 4",
            "--electrode-error-channel: 4",
            "Electrode error channel is 0 to 3 if Result is 10 (source 002, section 4.3)",
        ),
        (
            &format!("{config} 4 --point 10:20"),
            "--channel: 4",
            "Channel selection is 0 to 3 (source 002, section 4.2)",
        ),
        (
            &format!("{config} 0 --point 10:0 --point 4096:0"),
            "--point 2: the duration 4096 µs",
            "Duration is 0 to 4095 µs (source 002, section 4.2)",
        ),
        (&format!("{config} 0 --point 0:130.5"), "--point 1: the current 130.5 mA", current),
        (&format!("{config} 0 --point 10:-16000"), "--point 1: the current -16,000.0 mA", current),
        (
            &format!("{config} 0{seventeen}"),
            "--point: a number of 17 points",
            "Number of points is 1 to 16 (source 002, section 4.2)",
        ),
        // Before a net charge.
        (
            &format!("{config} 0 --point 10:20 --packet 64"),
            "--packet: 64",
            "Packet number is 0 to 63 (source 002, section 2.2)",
        ),
    ] {
        bad(&format!("packet write rehamove3 {words}"), &format!("{named} {refused}: {rule}"));
    }
}

/// Also where nothing is executed. Both areas are named, and what would balance the last point.
#[test]
fn net_charges() {
    for (points, charge, what) in [
        (
            &["250:20", "100:0", "200:-20"][..],
            2_000,
            "charge above zero 10,000 half mA µs = 5,000 nC, below zero -8,000 half mA µs = -4,000 nC, \
             net 2,000 half mA µs = 1,000 nC; point 3 would balance it with 250 µs, or with -25.0 mA",
        ),
        (
            &["1:-0.5"],
            -1,
            "charge above zero 0, below zero -1 half mA µs = -0.5 nC, net -1 half mA µs = -0.5 nC; \
             point 1 would balance it with 0 µs, or with 0.0 mA",
        ),
        (
            &["300:20", "7:-20"],
            11_720,
            "charge above zero 12,000 half mA µs = 6,000 nC, below zero -280 half mA µs = -140 nC, net \
             11,720 half mA µs = 5,860 nC; point 2 would balance it with 300 µs",
        ),
        (
            &["250:20", "30:20"],
            11_200,
            "charge above zero 11,200 half mA µs = 5,600 nC, below zero 0, net 11,200 half mA µs = \
             5,600 nC; no other duration or current of point 2 alone would balance it",
        ),
    ] {
        let points: String = points.iter().map(|point| format!(" --point {point}")).collect();
        for execution in ["--execute", "--no-stimulation"] {
            let line = format!("packet write rehamove3 ll-channel-config --channel 0 {execution}");
            let why = format!(
                "answer 4: net charge of {charge} half milliamp microseconds, which is to be 0"
            );
            bad(&format!("{line}{points}"), &format!("--point: the pulse is not good ({why}): {what}"));
        }
    }
}

/// What is said to balance the last point does.
#[test]
fn balanced() {
    let line = "ll-channel-config --channel red --execute --packet 1 --point 250:20 --point 100:0";
    writes(&format!("{line} --point 250:-20"), CONFIG);
    let packet = run::printed(&format!("packet write rehamove3 {line} --point 200:-25 --json"));
    assert!(packet.contains("\"charge\":0,"), "{packet}");
}

#[test]
fn words_that_are_no_values() {
    let named = "neither a good whole number nor a word for one, as";
    let config = "ll-channel-config --execute --point 1:0";
    for value in ["256", "-1", "green", "Red"] {
        let why = format!("{named} white: Channel selection is 0 to 3 (source 002, section 4.2)");
        invalid(&format!("{config} --channel {value}"), value, "--channel <C>", &why);
    }
    for value in ["120v", "256"] {
        let why = format!("{named} 150V: High Voltage is 0 to 6 (source 002, section 4.2)");
        invalid(&format!("ll-init --voltage {value}"), value, "--voltage <V>", &why);
    }
    invalid(
        "ll-stop --packet 256",
        "256",
        "--packet <N>",
        "not a good whole number: Packet number is 0 to 63 (source 002, section 2.2)",
    );
    for words in [
        "ll-channel-config --channel 0 --point 1:0",
        "ll-channel-config --channel 0 --point 1:0 --execute --no-stimulation",
        "ll-channel-config --execute --point 1:0",
        "ll-channel-config --channel 0 --execute",
        "ll-init-ack",
        "ml-init",
    ] {
        let ran = run::line(&format!("packet write rehamove3 {words}"));
        assert_eq!((ran.status, ran.out.as_str()), (2, ""), "{words}");
    }
}
