use super::{Output, Outputs, To};
use crate::failure::{BadInput, Failure};
use std::fs::{self, File};
use std::io::{self, Write};
use std::os::unix::fs::symlink;
use std::panic::{self, AssertUnwindSafe};
use std::path::Path;
use tempfile::TempDir;

fn folder() -> TempDir {
    tempfile::tempdir().expect("the system has a folder for this")
}

fn planned(path: &Path) -> Output {
    Outputs::new([]).plan(path).expect("it can be written")
}

fn text(path: &Path) -> String {
    fs::read_to_string(path).expect("it can be read")
}

fn number_of_files(folder: &TempDir) -> usize {
    fs::read_dir(folder.path()).expect("it can be read").count()
}

#[test]
fn in_parts() {
    let folder = folder();
    let path = folder.path().join("a");
    fs::write(&path, "before").expect("it can be written");
    let mut output = planned(&path);
    for part in ["one ", "two ", "three"] {
        output.write_all(part.as_bytes()).expect("there is room");
        assert_eq!((text(&path).as_str(), number_of_files(&folder)), ("before", 2));
    }
    output.finish(&mut io::sink()).expect("it is put in its place");
    assert_eq!((text(&path).as_str(), number_of_files(&folder)), ("one two three", 1));
}

#[test]
fn dropped() {
    let folder = folder();
    let (old, new) = (folder.path().join("old"), folder.path().join("new"));
    fs::write(&old, "before").expect("it can be written");
    for path in [&old, &new] {
        let mut output = planned(path);
        output.write_all(b"half").expect("there is room");
        drop(output);
        assert_eq!((text(&old).as_str(), number_of_files(&folder)), ("before", 1));
    }
}

#[test]
fn a_panic() {
    let folder = folder();
    let path = folder.path().join("a");
    fs::write(&path, "before").expect("it can be written");
    let mut output = planned(&path);
    let panicked = panic::catch_unwind(AssertUnwindSafe(move || {
        output.write_all(b"half").expect("there is room");
        panic::resume_unwind(Box::new("in the midst"));
    }));
    assert!(panicked.is_err());
    assert_eq!((text(&path).as_str(), number_of_files(&folder)), ("before", 1));
}

fn refusal(planned: Result<Output, BadInput>) -> String {
    planned.err().expect("it is refused").to_string()
}

/// A file that is there and one that is not yet, by several names.
#[test]
fn two_outputs() {
    let folder = folder();
    let path = |name: &str| folder.path().join(name);
    fs::write(path("old"), "before").expect("it can be written");
    fs::hard_link(path("old"), path("hard")).expect("it can be written");
    symlink("old", path("soft")).expect("it can be written");
    symlink("new", path("dangling")).expect("it can be written");
    let mut outputs = Outputs::new([]);
    let _old = outputs.plan(&path("old")).expect("it can be written");
    let _new = outputs.plan(&path("new")).expect("it can be written");
    for (name, of) in [("old", "old"), ("hard", "old"), ("soft", "old"), ("dangling", "new")] {
        let (path, of) = (path(name), path(of));
        let mut message = format!("{}: cannot be written: it is another output", path.display());
        if path != of {
            message += &format!(", {}", of.display());
        }
        assert_eq!(refusal(outputs.plan(&path)), message);
    }
    let other = folder.path().join(".").join("new");
    assert!(outputs.plan(&other).is_err());
    for _ in 0..2 {
        outputs.plan(Path::new("/dev/null")).expect("it holds nothing");
    }
}

/// The user's own files may have the names that are taken here for a while.
#[test]
fn names_that_are_taken() {
    let folder = folder();
    let taken = folder.path().join(format!(".yarrowbell-{}-0", std::process::id()));
    fs::write(&taken, "mine").expect("it can be written");
    planned(&folder.path().join("a")).finish(&mut io::sink()).expect("it is put in its place");
    assert_eq!((text(&taken).as_str(), number_of_files(&folder)), ("mine", 2));
}

/// What a writer of lines or tables hands on is still a failure of this file, and not of printing.
#[test]
fn an_error_in_the_midst() {
    let file = File::open(".").expect("it can be read");
    let mut output = Output { path: "a".into(), to: To::Stream(file) };
    let error = output.write_all(b"half").expect_err("it cannot be written");
    let Failure::Input(bad) = Failure::from(error) else { panic!("another failure") };
    assert_eq!(bad.to_string(), "a: cannot be written: Bad file descriptor (os error 9)");
    let other = Failure::from(io::Error::from_raw_os_error(28));
    assert!(matches!(other, Failure::Print(_)), "{other}");
}
