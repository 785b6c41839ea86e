//! The archives ask for no more from outside than is said here: a unit may have no C library to link
//! them with.

use std::process::Command;

/// What each archive may ask for.
const MOST: [(&str, &[&str]); 9] = [
    ("frame_exports", &[]),
    ("packet_readers", &[]),
    ("packet_writers", &[]),
    ("packet_readers3", &["memset"]),
    ("packet_writers3", &["memset"]),
    ("ring_exports", &[]),
    ("sheet_exports", &["memcpy", "memset"]),
    ("box_exports", &["memcpy"]),
    ("lent", &["memcpy"]),
];

/// The names that an archive asks for.
fn asked(library: &str) -> Vec<String> {
    let archive = format!("{}/lib{library}.a", env!("OUT_DIR"));
    let nm = Command::new("nm").args(["--undefined-only", "--format=posix", &archive]).output();
    let told = nm.unwrap_or_else(|error| panic!("nm: {error}"));
    assert!(told.status.success(), "nm {archive}: {}", String::from_utf8_lossy(&told.stderr));
    let names = String::from_utf8(told.stdout).expect("names are text");
    names.lines().filter_map(|line| Some(line.split_once(" U")?.0.to_owned())).collect()
}

#[test]
fn each_archive_is_looked_at() {
    let named: Vec<&str> = MOST.iter().map(|(library, _)| *library).collect();
    assert_eq!(named, include_str!("../../libraries").lines().collect::<Vec<_>>());
}

#[test]
fn no_archive_asks_for_more() {
    for (library, most) in MOST {
        for name in asked(library) {
            assert!(most.contains(&name.as_str()), "lib{library}.a asks for {name}");
        }
    }
}

#[test]
fn what_an_archive_asks_for_is_seen() {
    assert!(asked("lent").contains(&"memcpy".to_owned()));
}
