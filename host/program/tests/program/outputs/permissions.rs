//! The mode, the owner and the group of a file that is replaced stay, and its mode is heeded.

use super::{draws, folder, shell};
use crate::run::{self, Ran};
use std::fs::{self, Permissions};
use std::os::unix::fs::{chown, MetadataExt, PermissionsExt};
use std::os::unix::process::CommandExt;
use std::path::Path;
use std::process::Command;
use tempfile::TempDir;

fn set_mode(path: &Path, mode: u32) {
    fs::set_permissions(path, Permissions::from_mode(mode)).expect("it is this user's");
}

fn mode(path: &Path) -> u32 {
    fs::metadata(path).expect("it is there").mode() & 0o7777
}

/// Also for root, who could write them.
#[test]
fn write_protected() {
    let folder = folder("write_protected").with("p.svg", "before");
    let path = folder.path().join("p.svg");
    for protected in [0o444, 0o400, 0o555, 0o000] {
        set_mode(&path, protected);
        let message =
            format!("p.svg: cannot be written: it is write-protected (mode {protected:04o})");
        folder.refuses("replay s --plot p.svg", &message);
        folder.refuses("lesson ring --plot p.svg", &message);
        assert_eq!(mode(&path), protected);
        set_mode(&path, 0o600);
        assert_eq!(folder.text("p.svg"), "before");
    }
}

#[test]
fn modes_stay() {
    let folder = folder("modes_stay").with("p.svg", "before");
    let path = folder.path().join("p.svg");
    for kept in [0o600, 0o755, 0o664, 0o222, 0o666] {
        set_mode(&path, kept);
        draws(&folder, "p.svg");
        assert_eq!(mode(&path), kept);
    }
    assert!(folder.text("p.svg").starts_with("<svg"));
}

/// As of any new file: what the mask leaves.
#[test]
fn modes_of_new_files() {
    let folder = folder("modes_of_new_files");
    for (mask, left) in [("022", 0o644), ("027", 0o640), ("000", 0o666)] {
        let line = format!("umask {mask} && \"$yarrowbell\" replay s --plot {mask}.svg");
        assert_eq!(shell(&folder, &line).status, 0, "{mask}");
        assert_eq!(mode(&folder.path().join(format!("{mask}.svg"))), left, "{mask}");
    }
}

#[test]
fn owners_stay() {
    let folder = folder("owners_stay").with("p.svg", "before");
    let path = folder.path().join("p.svg");
    set_mode(&path, 0o640);
    if chown(&path, Some(12345), Some(23456)).is_err() {
        return; // Only root can give files away.
    }
    draws(&folder, "p.svg");
    let there = fs::metadata(&path).expect("it is there");
    assert_eq!((there.uid(), there.gid(), there.mode() & 0o7777), (12345, 23456, 0o640));
    assert!(folder.text("p.svg").starts_with("<svg"));
}

/// What the system says to a user who is not root, in a folder that this one can reach.
struct Guest {
    folder: TempDir,
    is_other: bool,
}

impl Guest {
    fn new() -> Guest {
        let folder = tempfile::tempdir().expect("the system has a folder for this");
        // A copy that this process wrote might still be open, in a process that another test begins.
        let mut copied = Command::new("cp");
        copied.args([env!("CARGO_BIN_EXE_yarrowbell"), "yarrowbell"]).current_dir(folder.path());
        assert_eq!(run::command(&mut copied, b"").status, 0);
        fs::write(folder.path().join("s"), "0 C0\n").expect("it can be written");
        let is_other = fs::metadata(folder.path()).expect("it is there").uid() == 0;
        Guest { folder, is_other }
    }

    /// A file of this mode, in the folder, which has that mode.
    fn with(self, name: &str, mode: u32, of_folder: u32) -> Guest {
        let path = self.folder.path().join(name);
        fs::write(&path, "before").expect("it can be written");
        set_mode(&path, mode);
        set_mode(self.folder.path(), of_folder);
        self
    }

    fn draws(&self, path: &str) -> Ran {
        let mut command = Command::new(self.folder.path().join("yarrowbell"));
        command.current_dir(self.folder.path()).args(["replay", "s", "--plot", path]);
        if self.is_other {
            command.uid(65534).gid(65534);
        }
        run::command(&mut command, b"")
    }

    fn is_refused(&self, path: &str, why: &str) {
        let ran = self.draws(path);
        assert_eq!((ran.status, ran.out.as_str()), (2, ""), "{path}");
        assert_eq!(ran.err, format!("{path}: cannot be written: {why}\n"));
    }
}

#[test]
fn folders_that_are_write_protected() {
    let guest = Guest::new().with("p.svg", 0o666, 0o555);
    guest.is_refused("new.svg", "Permission denied (os error 13)");
    guest.is_refused("p.svg", "no file can be made beside it: Permission denied (os error 13)");
    let text = fs::read_to_string(guest.folder.path().join("p.svg"));
    assert_eq!(text.expect("it can be read"), "before");
    set_mode(guest.folder.path(), 0o755);
}

#[test]
fn files_of_others() {
    let guest = Guest::new().with("p.svg", 0o644, 0o777);
    if guest.is_other {
        guest.is_refused("p.svg", "Permission denied (os error 13)");
        let text = fs::read_to_string(guest.folder.path().join("p.svg"));
        assert_eq!(text.expect("it can be read"), "before");
    }
}

/// In a folder as `/tmp` no one can replace a file of another: one that may be written is written
/// over.
#[test]
fn files_of_others_in_a_common_folder() {
    let guest = Guest::new().with("p.svg", 0o666, 0o1777);
    let path = guest.folder.path().join("p.svg");
    let before = fs::metadata(&path).expect("it is there");
    let ran = guest.draws("p.svg");
    assert_eq!((ran.status, ran.err.as_str()), (0, ""));
    let text = fs::read_to_string(&path).expect("it can be read");
    assert!(text.starts_with("<svg") && text.ends_with("</svg>\n"));
    let there = fs::metadata(&path).expect("it is there");
    assert_eq!((there.uid(), there.mode()), (before.uid(), before.mode()));
    assert_eq!(fs::read_dir(guest.folder.path()).expect("it can be read").count(), 3);
}
