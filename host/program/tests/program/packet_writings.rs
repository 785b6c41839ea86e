//! `packet write`: ways to spell a command, and values that are not good.

use crate::run::{self, bad, prints};
use independent::rehastim2::Command;

/// The line that has the program write this command. A mode is left out where it is 0 and the result
/// is not.
pub fn spelt(number: u8, command: Command) -> String {
    let words = match command {
        Command::Init { version } => format!("init --version-number {version}"),
        Command::InitAck { result } => format!("init-ack --result {result}"),
        Command::UnknownCommand { echo } => format!("unknown-command --echo-command-byte {echo}"),
        Command::Watchdog => "watchdog".to_owned(),
        Command::GetStimulationMode => "get-stimulation-mode".to_owned(),
        Command::GetStimulationModeAck { result, mode } if result != 0 && mode == 0 => {
            format!("get-stimulation-mode-ack --result {result}")
        }
        Command::GetStimulationModeAck { result, mode } => {
            format!("get-stimulation-mode-ack --result {result} --stimulation-mode {mode}")
        }
        Command::InitChannelListMode(list) => format!(
            "init-channel-list-mode --low-frequency-factor {} --active-channels {} \
             --active-low-frequency-channels {} --inter-pulse-interval {} \
             --main-stimulation-interval {} --channel-execution {}",
            list.low_frequency_factor,
            channels(list.active_channels),
            channels(list.active_low_frequency_channels),
            list.inter_pulse_interval,
            list.main_stimulation_interval,
            list.channel_execution
        ),
        Command::InitChannelListModeAck { result } => {
            format!("init-channel-list-mode-ack --result {result}")
        }
        Command::Other { number } => panic!("command {number} is not written"),
    };
    format!("packet write rehastim2 {words} --number {number}")
}

fn channels(bits: u8) -> String {
    let listed: Vec<String> =
        (1..=8).filter(|n| bits & 1 << (n - 1) != 0).map(|n| n.to_string()).collect();
    if listed.is_empty() {
        "none".to_owned()
    } else {
        listed.join(",")
    }
}

fn writes(words: &str, bytes: &str) {
    prints(&format!("packet write rehastim2 {words}"), &[bytes]);
}

#[test]
fn commands() {
    writes("init --version-number 81", "F0 81 F0 81 56 00 01 51 0F");
    writes("init-ack --result -5 --number 1", "F0 81 FB 81 56 01 02 FB 0F");
    writes("--number 1 init-ack --result=-5", "F0 81 FB 81 56 01 02 FB 0F");
    writes("watchdog", "F0 81 49 81 57 00 04 0F");
    writes("watchdog --number 240", "F0 81 70 81 56 81 A5 04 0F");
    writes("watchdog --packet 240", "F0 81 70 81 56 81 A5 04 0F");
    writes("get-stimulation-mode --number 1", "F0 81 76 81 57 01 0A 0F");
    let mode = "F0 81 11 81 51 09 0B 00 02 0F";
    writes("get-stimulation-mode-ack --result 0 --stimulation-mode 2 --number 9", mode);
}

#[test]
fn values_by_their_words() {
    let mode = "F0 81 11 81 51 09 0B 00 02 0F";
    writes(
        "get-stimulation-mode-ack --result no-error --stimulation-mode stimulation-started --number 9",
        mode,
    );
    writes(
        "init-ack --result incompatible-protocol-version --number 1",
        "F0 81 FB 81 56 01 02 FB 0F",
    );
    for (number, word) in [
        (0, "no-error"),
        (-1, "transfer-error"),
        (-2, "parameter-error"),
        (-3, "wrong-mode-error"),
        (-4, "motomed-connection-error"),
        (-6, "invalid-motomed-trainer"),
        (-7, "motomed-busy-error"),
        (-8, "busy-error"),
    ] {
        let line = |result: &str| {
            run::printed(&format!(
                "packet write rehastim2 init-channel-list-mode-ack --result {result}"
            ))
        };
        assert_eq!(line(word), line(&number.to_string()), "{word}");
    }
}

const LIST: &str =
    "init-channel-list-mode --number 2 --low-frequency-factor 2 --active-channels 1-4 \
                    --active-low-frequency-channels 4 --channel-execution as-fast-as-possible";

#[test]
fn intervals() {
    let bytes = "F0 81 25 81 5E 02 1E 02 81 5A 08 81 D4 08 00 01 0F";
    for (inter, main) in
        [("129", "2048"), ("66ms", "1025ms"), ("66.0ms", "1025.000000ms"), ("66.00ms", "2048")]
    {
        writes(
            &format!("{LIST} --inter-pulse-interval {inter} --main-stimulation-interval {main}"),
            bytes,
        );
    }
    for (inter, main) in [("0", "0"), ("1.5ms", "1ms")] {
        writes(
            &format!(
                "init-channel-list-mode --active-channels none --inter-pulse-interval {inter} \
                 --main-stimulation-interval {main}"
            ),
            "F0 81 90 81 5C 00 1E 00 00 00 00 00 00 00 0F",
        );
    }
}

fn invalid(words: &str, value: &str, argument: &str, why: &str) {
    run::invalid(&format!("packet write rehastim2 {words}"), value, argument, why);
}

#[test]
fn intervals_that_cannot_be_coded() {
    let inter = "Inter pulse interval coded is 0 to 255, 1.5 to 129.0 ms (source 000, section 4.3)";
    let main =
        "Main stimulation interval coded is 0 to 2048, 1.0 to 1025.0 ms (source 000, section 4.3)";
    for (value, why) in [
        ("8.3ms", "no interval that can be coded: 8.0ms is coded 13, 8.5ms is coded 14"),
        ("1.75ms", "no interval that can be coded: 1.5ms is coded 0, 2.0ms is coded 1"),
        (
            "128.999999ms",
            "no interval that can be coded: 128.5ms is coded 254, 129.0ms is coded 255",
        ),
    ] {
        let line = format!(
            "init-channel-list-mode --active-channels 1 --main-stimulation-interval 18 \
             --inter-pulse-interval {value}"
        );
        invalid(&line, value, "--inter-pulse-interval <T>", why);
    }
    for value in [
        "1ms",
        "129.1ms",
        "129.5ms",
        "256",
        "-1",
        "+8",
        "8.ms",
        ".5ms",
        "ms",
        "8s",
        "8.5",
        "8.5 ms",
        "1.0000001ms",
        "18446744073709551615ms",
    ] {
        let words = ["packet", "write", "rehastim2", "init-channel-list-mode"];
        let rest = ["--active-channels", "1", "--main-stimulation-interval", "18"];
        let last = ["--inter-pulse-interval", value];
        let ran = run::words(&[&words[..], &rest, &last].concat());
        let why = format!("no interval, in ms as 8.5ms or coded as 14: {inter}");
        let message =
            format!("error: Invalid value '{value}' for '--inter-pulse-interval <T>': {why}");
        assert_eq!((ran.status, ran.out.as_str()), (2, ""), "{value}");
        assert_eq!(ran.err.lines().next(), Some(message.as_str()), "{value}");
    }
    for value in ["0.5ms", "1025.2ms", "65536", "32769ms", "40000ms"] {
        let line = format!(
            "init-channel-list-mode --active-channels 1 --inter-pulse-interval 13 \
             --main-stimulation-interval {value}"
        );
        let why = format!("no interval, in ms as 8.5ms or coded as 14: {main}");
        invalid(&line, value, "--main-stimulation-interval <T>", &why);
    }
}

/// What a type can hold is the library's to refuse.
#[test]
fn values_that_are_not_good() {
    let refused = "is not good (answer 4: value not good, or a command that is not written)";
    let list = "init-channel-list-mode --active-channels 1 --inter-pulse-interval 13";
    let main =
        "Main stimulation interval coded is 0 to 2048, 1.0 to 1025.0 ms (source 000, section 4.3)";
    let result = "Result is 0 to -8 (source 000, section 5.1)";
    let there = "Stimulation mode is there exactly if Result is 0 (source 000, section 4.2)";
    for (words, named, rule) in [
        ("init-ack --result 5", "--result: 5", result),
        ("init-ack --result -9", "--result: -9", result),
        ("init-channel-list-mode-ack --result -128", "--result: -128", result),
        ("get-stimulation-mode-ack --result 1", "--result: 1", result),
        ("get-stimulation-mode-ack --result 0", "--stimulation-mode: none", there),
        (
            "get-stimulation-mode-ack --result -1 --stimulation-mode 0",
            "--stimulation-mode: 0",
            there,
        ),
        (
            "get-stimulation-mode-ack --result 0 --stimulation-mode 3",
            "--stimulation-mode: 3",
            "Stimulation mode is 0, 1 or 2 (source 000, section 4.2)",
        ),
        (
            &format!("{list} --main-stimulation-interval 2049"),
            "--main-stimulation-interval: 2049",
            main,
        ),
        (
            &format!("{list} --main-stimulation-interval 1025.5ms"),
            "--main-stimulation-interval: 2049",
            main,
        ),
        (
            &format!("{list} --main-stimulation-interval 18 --low-frequency-factor 8"),
            "--low-frequency-factor: 8",
            "Low frequency factor is 0 to 7 (source 000, section 4.3)",
        ),
        (
            &format!("{list} --main-stimulation-interval 18 --channel-execution 2"),
            "--channel-execution: 2",
            "Channel execution is 0 or 1 (source 000, section 4.3)",
        ),
    ] {
        bad(&format!("packet write rehastim2 {words}"), &format!("{named} {refused}: {rule}"));
    }
}

#[test]
fn words_that_are_no_values() {
    let number = "not a good whole number";
    let named = "neither a good whole number nor a word for one, as";
    invalid(
        "watchdog --number 256",
        "256",
        "--number <N>",
        &format!("{number}: Packet number is 0 to 255 (source 000, section 4)"),
    );
    invalid(
        "init --version-number x",
        "x",
        "--version-number <N>",
        &format!("{number}: Version number is 0 to 255 (source 000, section 4.1)"),
    );
    for value in ["busy", "-129", "+1", "1.0", "Busy-error"] {
        invalid(
            &format!("init-ack --result {value}"),
            value,
            "--result <R>",
            &format!("{named} no-error: Result is 0 to -8 (source 000, section 5.1)"),
        );
    }
    for value in ["-1", "256", "stopped"] {
        invalid(
            &format!("get-stimulation-mode-ack --result 0 --stimulation-mode {value}"),
            value,
            "--stimulation-mode <M>",
            &format!(
                "{named} stimulation-started: Stimulation mode is 0, 1 or 2 (source 000, section 4.2)"
            ),
        );
    }
    let list = "init-channel-list-mode --inter-pulse-interval 13 --main-stimulation-interval 18";
    invalid(
        &format!("{list} --active-channels 1,9"),
        "1,9",
        "--active-channels <LIST>",
        "\"9\" is not a channel from 1 to 8, nor a range of them; a list is spelt as 1,3 or 1-4,7",
    );
}
