//! Running the program, and what it does with its output and its exit status.

use std::ffi::OsStr;
use std::io::Write;
use std::path::Path;
use std::process::{Command, Stdio};

/// What a run came to.
pub struct Ran {
    pub status: i32,
    pub out: String,
    pub err: String,
}

pub fn words(words: &[&str]) -> Ran {
    words_in(Path::new("."), words)
}

/// Runs the program in a folder.
pub fn words_in<W: AsRef<OsStr>>(folder: &Path, words: &[W]) -> Ran {
    fed(folder, words, b"")
}

/// Runs the program in a folder, with this on standard input.
pub fn fed<W: AsRef<OsStr>>(folder: &Path, words: &[W], input: &[u8]) -> Ran {
    let mut program = Command::new(env!("CARGO_BIN_EXE_yarrowbell"));
    command(program.current_dir(folder).args(words), input)
}

/// Runs a command that ends with what the program came to, with this on standard input.
pub fn command(command: &mut Command, input: &[u8]) -> Ran {
    let mut child = command
        .stdin(Stdio::piped())
        .stdout(Stdio::piped())
        .stderr(Stdio::piped())
        .spawn()
        .expect("the program starts");
    // It need not read what it is given.
    let _ = child.stdin.take().expect("it is piped").write_all(input);
    let output = child.wait_with_output().expect("the program ends");
    Ran {
        status: output.status.code().expect("the program ends by itself"),
        out: String::from_utf8(output.stdout).expect("it prints UTF-8"),
        err: String::from_utf8(output.stderr).expect("it prints UTF-8"),
    }
}

/// Runs the program with the words of a line, which stand between spaces.
pub fn line(line: &str) -> Ran {
    words(&line.split_whitespace().collect::<Vec<&str>>())
}

/// What a line prints that does its work.
pub fn printed(words: &str) -> String {
    let ran = line(words);
    assert_eq!((ran.status, ran.err.as_str()), (0, ""), "{words}");
    assert!(ran.out.ends_with('\n'), "{words}");
    ran.out
}

/// The line prints these lines and nothing else.
pub fn prints(words: &str, lines: &[&str]) {
    assert_eq!(printed(words).lines().collect::<Vec<&str>>(), lines, "{words}");
}

/// What the line prints ends with these lines.
pub fn ends(words: &str, lines: &[&str]) {
    let out = printed(words);
    let out: Vec<&str> = out.lines().collect();
    assert_eq!(out[out.len() - lines.len()..], *lines, "{words}");
}

/// The line is bad input, of which this is said and nothing printed.
pub fn bad(words: &str, message: &str) {
    let ran = line(words);
    assert_eq!((ran.status, ran.out.as_str()), (2, ""), "{words}");
    assert_eq!(ran.err.strip_suffix('\n'), Some(message), "{words}");
}

/// The line gives an argument a value that it does not take: what is said first.
pub fn invalid(words: &str, value: &str, argument: &str, why: &str) {
    let ran = line(words);
    assert_eq!((ran.status, ran.out.as_str()), (2, ""), "{words}");
    let message = format!("error: Invalid value '{value}' for '{argument}': {why}");
    assert_eq!(ran.err.lines().next(), Some(message.as_str()), "{words}");
}
