//! A reader who goes away, as `head` does: the program ends quietly.

use crate::folder::Folder;
use std::io::{BufRead, BufReader};
use std::os::fd::OwnedFd;
use std::os::unix::net::UnixStream;
use std::process::{Command, Stdio};

/// Runs the program in a folder with a reader who has gone before.
fn unread(folder: &Folder, line: &str) {
    let (here, there) = UnixStream::pair().expect("two ends");
    drop(here);
    let output = Command::new(env!("CARGO_BIN_EXE_yarrowbell"))
        .current_dir(folder.path())
        .args(line.split(' '))
        .stdout(Stdio::from(OwnedFd::from(there)))
        .output()
        .expect("the program starts");
    assert_eq!((output.status.code(), output.stderr), (Some(0), Vec::new()), "{line}");
}

#[test]
fn closed_before() {
    let folder = Folder::new("closed_before");
    for line in [
        "read C0",
        "write stop",
        "trace 030000000001",
        "packet read rehastim2 F0",
        "packet read rehastim2 F0 --all",
        "packet write rehastim2 watchdog",
        "packet read rehamove3 F0",
        "packet read rehamove3 F0 --all",
        "packet write rehamove3 ll-stop",
    ] {
        unread(&folder, line);
    }
}

/// Files that were asked for are written all the same, and are whole.
#[test]
fn files_are_written() {
    let list = "0 88 01 20 00 30 12\n5 BB 01 48 28 22 2C 1E\n20000 end\n";
    let folder = Folder::new("files_are_written").with("s", list);
    for (line, files) in [
        ("replay s --plot p.svg --events e.csv", &["p.svg", "e.csv"][..]),
        ("replay s --calls --plot p.svg", &["p.svg"]),
        ("replay s --json --events e.csv", &["e.csv"]),
        ("lesson ring --plot p.svg", &["p.svg"]),
        ("lesson charge --plot p.svg", &["p.svg"]),
        ("packet write rehamove3 ll-channel-config --channel 0 --execute --point 1:0 --plot p.svg", {
            &["p.svg"]
        }),
        ("demo", &["demo.svg", "demo-lax.trace", "demo-strict.trace"]),
    ] {
        assert_eq!(folder.line(line).status, 0, "{line}");
        let whole: Vec<String> = files.iter().map(|name| folder.text(name)).collect();
        files.iter().for_each(|name| folder.remove(name));
        unread(&folder, line);
        for (name, whole) in files.iter().zip(whole) {
            assert!(folder.text(name) == whole, "{line}: {name}");
        }
    }
}

#[test]
fn closed_after_a_line() {
    let list = "0 88 01 20 00 30 12\n5 BB 01 48 28 22 2C 1E\n100000 end\n";
    let folder = Folder::new("closed_after_a_line").with("s", list);
    for words in [&["replay", "s", "--calls"][..], &["replay", "s"], &["replay", "s", "--json"]] {
        let mut child = Command::new(env!("CARGO_BIN_EXE_yarrowbell"))
            .current_dir(folder.path())
            .args(words)
            .stdout(Stdio::piped())
            .stderr(Stdio::piped())
            .spawn()
            .expect("the program starts");
        let mut out = BufReader::new(child.stdout.take().expect("it is piped"));
        let mut line = String::new();
        out.read_line(&mut line).expect("it prints a line");
        assert!(line.contains("clock"), "{line}");
        drop(out);
        let output = child.wait_with_output().expect("the program ends");
        assert_eq!(output.status.code(), Some(0), "{words:?}");
        assert_eq!(String::from_utf8_lossy(&output.stderr), "", "{words:?}");
    }
}
