//! The bar of a long run, on a terminal that `script` makes.

use crate::folder::Folder;
use std::io::Read;
use std::process::{Command, Stdio};
use std::time::{Duration, Instant};

/// Before each time that the bar is drawn its line is cleared.
const CLEARED: &str = "\r\u{1b}[2K";

/// Runs a line, with its standard error on a terminal of so many columns, until the bar was drawn so
/// many times or the run is over. Hands back what the terminal was sent, and how long it was not.
fn on_a_terminal(folder: &Folder, line: &str, columns: usize, draws: usize) -> (String, Duration) {
    let program = env!("CARGO_BIN_EXE_yarrowbell");
    let line = format!("stty cols {columns} rows 24; exec '{program}' {line} >/dev/null");
    let began = Instant::now();
    let mut terminal = Command::new("script")
        .current_dir(folder.path())
        .args(["--quiet", "--flush", "--command", &line, "/dev/null"])
        .stdin(Stdio::null())
        .stdout(Stdio::piped())
        .spawn()
        .expect("every Debian machine has it");
    let mut out = terminal.stdout.take().expect("it is piped");
    let (mut sent, mut buffer) = (Vec::new(), [0; 4096]);
    let mut silent = Duration::ZERO;
    while String::from_utf8_lossy(&sent).matches(CLEARED).count() < draws {
        let read = out.read(&mut buffer).expect("it can be read");
        if read == 0 {
            break;
        }
        if sent.is_empty() {
            silent = began.elapsed();
        }
        sent.extend(&buffer[..read]);
    }
    // The program ends with its terminal.
    terminal.kill().expect("it is there, or was");
    terminal.wait().expect("it ends");
    (String::from_utf8_lossy(&sent).into_owned(), silent)
}

/// Nothing is shown for a second, and then no line is longer than the terminal is wide.
#[test]
fn it_fits() {
    let folder = Folder::new("it_fits").with("s", "0 88 01 20 00 30 12\n100000000 end\n");
    let folder = &folder;
    std::thread::scope(|scope| {
        for (columns, words) in [(20, "%"), (40, " calls"), (60, " left"), (100, "/s, ")] {
            scope.spawn(move || {
                let (sent, silent) = on_a_terminal(folder, "replay s", columns, 3);
                assert!(silent >= Duration::from_secs(1), "silent for {silent:?}");
                let lines: Vec<&str> = sent.split(CLEARED).collect();
                assert!(lines.len() >= 4, "{sent:?}");
                for line in lines {
                    assert!(line.chars().count() <= columns, "{columns}: {line:?}");
                    assert!(!line.contains(['.', '\r', '\n']), "{columns}: {line:?}");
                }
                assert!(sent.contains(words), "{columns}: {sent:?}");
            });
        }
    });
}

#[test]
fn a_short_run_shows_nothing() {
    let folder = Folder::new("a_short_run").with("s", "0 88 01 20 00 30 12\n300 end\n");
    assert_eq!(on_a_terminal(&folder, "replay s", 80, 1).0, "");
    assert_eq!(on_a_terminal(&folder, "soak --calls 100", 80, 1).0, "");
}
