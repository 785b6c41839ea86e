//! The titles of pictures: names of files of any length and of any characters.

use crate::folder::Folder;
use crate::well_formed::is_well_formed;
use std::ffi::OsStr;
use std::fs;
use std::os::unix::ffi::OsStrExt;
use std::process::Command;

const LIST: &str = "0 88 01 20 00 30 12\n300 end\n";

/// The title of the picture of a session and a profile that have these names.
fn title(folder: &Folder, session: &OsStr, profile: &OsStr) -> String {
    for (name, content) in [(session, LIST), (profile, "")] {
        let path = folder.path().join(name);
        fs::create_dir_all(path.parent().expect("it is below the folder")).expect("a folder");
        fs::write(path, content).expect("the folder can be written");
    }
    let output = Command::new(env!("CARGO_BIN_EXE_yarrowbell"))
        .current_dir(folder.path())
        .args([OsStr::new("replay"), session, OsStr::new("--profile"), profile])
        .args(["--plot", "p.svg"])
        .output()
        .expect("the program starts");
    assert_eq!((output.status.code(), output.stderr), (Some(0), Vec::new()));
    let picture = folder.text("p.svg");
    assert!(is_well_formed(&picture), "{session:?}");
    let titles = picture.lines().filter(|line| line.contains(", profile "));
    titles.collect::<Vec<&str>>().join("\n")
}

#[test]
fn any_characters() {
    let folder = Folder::new("titles_any_characters");
    let names: [(&[u8], &str); 4] = [
        (b"<day>&\"1\'", "&lt;day&gt;&amp;&quot;1&apos;"),
        (b"day\x011\x1b[2J\n\x7f", "day\u{FFFD}1\u{FFFD}[2J\u{FFFD}\u{FFFD}"),
        (b"day\xff1\xc3", "day\u{FFFD}1\u{FFFD}"),
        ("µ 一\u{FFFE}".as_bytes(), "µ 一\u{FFFD}"),
    ];
    for (name, written) in names {
        let title = title(&folder, OsStr::from_bytes(name), OsStr::new("lab.toml"));
        assert_eq!(title, format!("{written}, profile lab.toml"));
    }
}

/// The end of a path is what tells it from others.
#[test]
fn long_paths() {
    let folder = Folder::new("titles_long_paths");
    let deep = |name: &str| format!("{}{name}", "a-long-folder/".repeat(15));
    let (session, profile) = (deep("day1.session"), deep("lab.toml"));
    let title = title(&folder, OsStr::new(&session), OsStr::new(&profile));
    let (one, other) = title.split_once(", profile ").expect("both are named");
    for (shown, path) in [(one, session), (other, profile)] {
        let end = shown.strip_prefix('…').unwrap_or_else(|| panic!("{shown} is not shortened"));
        assert!(path.ends_with(end) && end.len() > 30, "{shown}");
    }
    assert!(title.chars().count() < 120, "{title}");
}
