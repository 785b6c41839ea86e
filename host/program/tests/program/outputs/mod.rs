//! Files that are written: nothing that lies at their paths is harmed.

mod devices;
mod endings;
mod inputs;
mod links;
mod permissions;
mod streams;

use crate::folder::Folder;
use crate::run::{self, Ran};
use std::process::Command;

/// A folder with a session and two profiles.
fn folder(name: &str) -> Folder {
    Folder::new(name)
        .with("s", "0 88 01 20 00 30 12\n5 BB 01 48 28 22 2C 1E\n300 end\n")
        .with("p.toml", "watchdog = 250\n")
        .with("q.toml", "watchdog = 150\n")
}

/// The picture of the session.
fn picture(folder: &Folder) -> String {
    let ran = folder.line("replay s --plot picture.svg");
    assert_eq!((ran.status, ran.err.as_str()), (0, ""));
    let picture = folder.text("picture.svg");
    assert!(picture.starts_with("<svg") && picture.ends_with("</svg>\n"), "{picture}");
    picture
}

/// The picture can be drawn to this path.
fn draws(folder: &Folder, path: &str) {
    let ran = folder.line(&format!("replay s --plot {path}"));
    assert_eq!((ran.status, ran.err.as_str()), (0, ""), "{path}");
}

/// Runs the program in a folder by a line of the shell, in which it is `$yarrowbell`.
fn shell(folder: &Folder, line: &str) -> Ran {
    run::command(&mut sh(folder, line), b"")
}

fn sh(folder: &Folder, line: &str) -> Command {
    let mut sh = Command::new("sh");
    sh.args(["-c", line]).current_dir(folder.path());
    sh.env("yarrowbell", env!("CARGO_BIN_EXE_yarrowbell"));
    sh
}
