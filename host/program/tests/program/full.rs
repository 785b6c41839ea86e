use std::fs::File;
use std::process::Command;

fn full() -> File {
    File::options().write(true).open("/dev/full").expect("Linux has it")
}

/// What cannot be printed is not passed over in silence.
#[test]
fn no_room_for_the_output() {
    for words in [
        &["read", "C0"][..],
        &["read", "C1"],
        &["read", "C1", "--json", "--check"],
        &["write", "stop"],
        &["write", "stop", "--json"],
        &["trace", "030000000001"],
        &["trace", "030000000001", "--json"],
        &["replay", "/dev/null", "--json"],
    ] {
        let output = Command::new(env!("CARGO_BIN_EXE_yarrowbell"))
            .args(words)
            .stdout(full())
            .output()
            .expect("the program starts");
        assert_eq!(output.status.code(), Some(3), "{words:?}");
        let message = String::from_utf8(output.stderr).expect("it prints UTF-8");
        assert!(message.starts_with("yarrowbell: cannot print: "), "{message}");
    }
}

/// The exit status says what a message cannot.
#[test]
fn no_room_for_the_message() {
    for (line, status, out) in [
        ("write init --channels 1 --group-time 3 --main-time 4", 0, "80 00 20 00 30 04\n"),
        ("read XY", 2, ""),
        ("replay gone", 2, ""),
        ("melt", 2, ""),
    ] {
        let output = Command::new(env!("CARGO_BIN_EXE_yarrowbell"))
            .args(line.split(' '))
            .stderr(full())
            .output()
            .expect("the program starts");
        let printed = String::from_utf8(output.stdout).expect("it prints UTF-8");
        assert_eq!((output.status.code(), printed.as_str()), (Some(status), out), "{line}");
    }
}
