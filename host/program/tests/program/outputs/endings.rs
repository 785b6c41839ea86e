//! However a run ends, it leaves no file but those that it was to write, and an old file is whole.

use super::{draws, folder, picture, sh, shell};
use crate::folder::Folder;
use std::fs;
use std::os::unix::process::ExitStatusExt;
use std::process::{Child, Command, Stdio};
use std::thread;
use std::time::Duration;

/// A file beside the picture is the user's, whatever it is called.
#[test]
fn others_beside_it() {
    let folder = folder("others_beside_it").with("p.svg.part", "mine").with("bad", "5\n");
    let names = folder.names();
    folder.refuses(
        "replay bad --plot p.svg",
        "bad:1: a clock alone: bytes in hex follow it, or the word end",
    );
    assert_eq!(folder.names(), names);
    draws(&folder, "p.svg");
    assert_eq!(folder.names(), ["bad", "p.svg", "p.svg.part", "p.toml", "q.toml", "s"]);
    assert_eq!(folder.text("p.svg.part"), "mine");
}

/// No file may become larger than 512 bytes here, or 1,024: shells differ.
#[test]
fn no_room_for_the_picture() {
    let folder = folder("no_room_for_the_picture").with("p.svg", "before");
    for path in ["p.svg", "new.svg"] {
        let ran = shell(&folder, &format!("ulimit -f 1; \"$yarrowbell\" replay s --plot {path}"));
        assert_eq!(ran.status, 2);
        let message = format!("{path}: cannot be written: File too large (os error 27)\n");
        assert_eq!(ran.err, message);
    }
    assert_eq!(folder.text("p.svg"), "before");
    assert_eq!(folder.names(), ["p.svg", "p.toml", "q.toml", "s"]);
}

/// Of hard links, which are written over in their place, on a disk with room for the old content, the
/// new one and a little more. Where a test may mount none, there is nothing to see.
#[test]
fn no_room_for_what_is_longer() {
    const PAGE: usize = 4096;
    let folder = folder("no_room_for_what_is_longer").with("before", "x".repeat(PAGE));
    let size = 2 * PAGE + picture(&folder).len().next_multiple_of(PAGE);
    fs::create_dir(folder.path().join("disk")).expect("the folder can be written");
    folder.put(
        "small",
        format!(
            "mount -t tmpfs -o size={size} tmpfs disk || exit\n\
             cd disk && cp ../before one && ln one two && \"$yarrowbell\" replay ../s --plot one\n\
             status=$?\n\
             ls -A >../names; cp two ../after; exit $status\n"
        ),
    );
    let ran = shell(&folder, "unshare --map-root-user --mount sh small");
    if folder.names().contains(&"names".to_owned()) {
        assert_eq!(ran.status, 2);
        let message = "one: cannot be written: No space left on device (os error 28)\n";
        assert_eq!(ran.err, message);
        assert_eq!(folder.text("names"), "one\ntwo\n");
        assert!(folder.text("after") == folder.text("before"), "the old content was harmed");
    }
}

/// A run in the midst of a session, killed if a test fails.
struct Running<'a> {
    folder: &'a Folder,
    before: Vec<String>,
    child: Child,
}

/// The session has minutes to go.
fn far(name: &str) -> Folder {
    Folder::new(name).with("far", "4294967295 end\n")
}

impl Running<'_> {
    /// By these words of the shell the program is started, and has begun to write.
    fn begin<'a>(folder: &'a Folder, start: &str, path: &str) -> Running<'a> {
        let before = folder.names();
        let line = format!("ulimit -c 0; {start} \"$yarrowbell\" replay far --plot {path}");
        let mut sh = sh(folder, &line);
        let child = sh.stdout(Stdio::null()).spawn().expect("there is a shell");
        let mut running = Running { folder, before, child };
        while folder.names().len() == running.before.len() {
            running.goes_on();
        }
        running
    }

    fn goes_on(&mut self) {
        let ended = self.child.try_wait().expect("it is this one's child");
        assert!(ended.is_none(), "it has ended: {ended:?}");
        thread::sleep(Duration::from_millis(1));
    }

    fn send(&self, signal: &str) {
        let kill = format!("kill -{signal} {}", self.child.id());
        let status = Command::new("sh").args(["-c", &kill]).status().expect("there is a shell");
        assert!(status.success(), "{kill}");
    }

    /// It ends by this signal, and leaves what was there before.
    fn ends_by(mut self, signal: &str, number: i32) {
        self.send(signal);
        let status = self.child.wait().expect("it is this one's child");
        assert_eq!(status.signal(), Some(number), "{signal}: {status}");
        assert_eq!(self.folder.names(), self.before, "{signal}");
    }
}

impl Drop for Running<'_> {
    fn drop(&mut self) {
        let _ = self.child.kill();
        let _ = self.child.wait();
    }
}

/// Also where the tests themselves were started to ignore some, as under `nohup`.
#[test]
fn signals() {
    let folder = far("signals").with("p.svg", "before");
    for (signal, number) in [("HUP", 1), ("INT", 2), ("QUIT", 3), ("TERM", 15), ("XCPU", 24)] {
        for path in ["p.svg", "new.svg"] {
            Running::begin(&folder, "exec env --default-signal", path).ends_by(signal, number);
            assert_eq!(folder.text("p.svg"), "before", "{signal}");
        }
    }
}

/// As under `nohup`: a signal that the run was started to ignore does not end it.
#[test]
fn ignored_signals() {
    let folder = far("ignored_signals").with("p.svg", "before");
    let mut running = Running::begin(&folder, "trap '' HUP INT; exec", "p.svg");
    for signal in ["HUP", "INT"] {
        running.send(signal);
        for _ in 0..20 {
            running.goes_on();
        }
    }
    running.ends_by("TERM", 15);
    assert_eq!(folder.text("p.svg"), "before");
}
