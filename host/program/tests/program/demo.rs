//! `demo`

use crate::folder::Folder;
use std::fs::{self, Permissions};
use std::os::unix::fs::{symlink, PermissionsExt};

const FILES: [&str; 3] = ["demo-lax.trace", "demo-strict.trace", "demo.svg"];

/// The demo does its work, and this is printed.
fn shown(folder: &Folder, line: &str) -> String {
    let ran = folder.line(line);
    assert_eq!((ran.status, ran.err.as_str()), (0, ""), "{line}");
    ran.out
}

#[test]
fn case_12_on_two_units() {
    let folder = Folder::new("case_12_on_two_units");
    let out = shown(&folder, "demo");
    assert_eq!(folder.names(), FILES);
    let lines: Vec<&str> = out.lines().map(str::trim).collect();
    for line in [
        "5         0.5  > BB 01 48 28 22 2C 1E  Update: channel 1 single pulse 200 µs 40 mA;",
        "channel 3 doublet 300 µs 30 mA",
        "145        14.5  pulse on channel 3: 300 µs, 30 mA           pulse on channel 3: 300 µs, 30 mA",
        "200        20.0  pulse on channel 1: 200 µs, 40 mA                                                       differ",
        "255        25.5  TRIP, cause: watchdog                                                                   differ",
        "lax: tripped at clock 300; commands 2, pulses 6, trips 1",
        "strict: tripped at clock 300; commands 2, pulses 3, trips 1",
        "held (3 pulses)",
    ] {
        assert!(lines.contains(&line), "{line:?} is not in\n{out}");
    }
    // Document 01's case 12 gives the pulses, case 13 three of the records.
    let trace = folder.text("demo-lax.trace");
    assert!(trace.contains("02 64 00 00 00 01 C8 00 28 02 73 00 00 00 03 2C 01 1E 02 91 00 00 00"));
    assert!(trace.ends_with("03 FF 00 00 00 02\n"));
    assert!(folder.text("demo-strict.trace").ends_with("03 9B 00 00 00 02\n"));
    for trace in ["demo-lax.trace", "demo-strict.trace"] {
        shown(&folder, &format!("trace {trace}"));
    }
    let picture = folder.text("demo.svg");
    for title in ["lax: case 12, watchdog 25.0 ms", "strict: case 12, watchdog 15.0 ms"] {
        assert!(picture.lines().any(|line| line == title), "{title}");
    }
}

/// Before anything else.
#[test]
fn says_what_it_writes_and_where() {
    let folder = Folder::new("says_what_it_writes_and_where");
    let here = folder.path().canonicalize().expect("it is there");
    let first = format!(
        "Three files go into the current folder, {}:\n  \
           demo-lax.trace     the trace of the lax unit\n  \
           demo-strict.trace  the trace of the strict unit\n  \
           demo.svg           the picture\n\n",
        here.display()
    );
    let out = shown(&folder, "demo");
    assert!(out.starts_with(&first), "{out}");
}

/// It can be run again, over its own files, also if an earlier version made them otherwise.
#[test]
fn twice() {
    let folder = Folder::new("demo_twice");
    let first = shown(&folder, "demo");
    let files = FILES.map(|name| folder.text(name));
    assert_eq!(shown(&folder, "demo"), first);
    assert!(FILES.map(|name| folder.text(name)) == files, "the files differ");
    for (name, text) in FILES.iter().zip(&files) {
        let (mark, _) = text.split_once('\n').expect("it has lines");
        folder.put(name, format!("{mark}\nof an earlier version\n"));
    }
    assert_eq!(shown(&folder, "demo"), first);
    assert!(FILES.map(|name| folder.text(name)) == files, "the files differ");
}

/// The picture is good XML: a comment, and then its root.
#[test]
fn the_mark_in_the_picture() {
    let folder = Folder::new("the_mark_in_the_picture");
    shown(&folder, "demo");
    let picture = folder.text("demo.svg");
    let (mark, rest) = picture.split_once('\n').expect("it has lines");
    assert_eq!(mark, "<!-- case 12, as yarrowbell demo draws it -->");
    assert!(rest.starts_with("<svg") && rest.ends_with("</svg>\n"));
}

const REFUSED: &str = "not written by the demo, and not overwritten without --force";

/// A file of the same name that the demo did not write.
#[test]
fn files_of_others() {
    for name in FILES {
        for text in ["", "mine\n", "# case 12\n", "<svg></svg>\n"] {
            let folder = Folder::new("demo_files_of_others").with(name, text);
            folder.refuses("demo", &format!("{name}: {REFUSED}"));
            assert_eq!(folder.text(name), text);
            shown(&folder, "demo --force");
            assert_eq!(folder.names(), FILES);
            assert_ne!(folder.text(name), text);
            shown(&folder, "demo");
        }
    }
}

/// All of them are named: who takes --force knows what is lost.
#[test]
fn several_files_of_others() {
    let folder = Folder::new("several_files_of_others");
    shown(&folder, "demo");
    let trace = folder.text("demo-strict.trace");
    folder.put("demo-lax.trace", "mine\n");
    folder.put("demo.svg", "mine\n");
    folder.refuses("demo", &format!("demo-lax.trace, demo.svg: {REFUSED}"));
    assert_eq!(folder.text("demo-lax.trace"), "mine\n");
    assert_eq!(folder.text("demo-strict.trace"), trace);
    assert_eq!(folder.text("demo.svg"), "mine\n");
}

/// The mark of one file is not that of another.
#[test]
fn a_file_under_another_name() {
    let folder = Folder::new("a_file_under_another_name");
    shown(&folder, "demo");
    folder.put("demo-lax.trace", folder.text("demo-strict.trace"));
    folder.refuses("demo", &format!("demo-lax.trace: {REFUSED}"));
}

/// A link is judged by the file that it names.
#[test]
fn links() {
    let folder = Folder::new("demo_links").with("mine.svg", "mine\n");
    let link = folder.path().join("demo.svg");
    symlink("mine.svg", &link).expect("the folder can be written");
    folder.refuses("demo", &format!("demo.svg: {REFUSED}"));
    assert_eq!(folder.text("mine.svg"), "mine\n");
    shown(&folder, "demo --force");
    assert!(link.is_symlink());
    assert!(folder.text("mine.svg").starts_with("<!-- case 12"));
    let same = Folder::new("demo_links");
    symlink("demo.svg", same.path().join("demo-lax.trace")).expect("the folder can be written");
    let message = "demo.svg: cannot be written: it is another output, demo-lax.trace";
    same.refuses("demo", message);
}

/// What cannot be written at all is so with --force, too.
#[test]
fn places_that_are_refused() {
    let folder = Folder::new("places_that_are_refused").with("demo-lax.trace", "mine\n");
    let path = folder.path().join("demo-lax.trace");
    fs::set_permissions(&path, Permissions::from_mode(0o444)).expect("it is this user's");
    let message = "demo-lax.trace: cannot be written: it is write-protected (mode 0444)";
    folder.refuses("demo --force", message);
    assert_eq!(folder.text("demo-lax.trace"), "mine\n");
    fs::remove_file(&path).expect("the folder can be written");
    fs::create_dir(folder.path().join("demo.svg")).expect("the folder can be written");
    let message = "demo.svg: cannot be written: this is a directory";
    folder.refuses("demo", message);
    folder.refuses("demo --force", message);
}
