//! A symbolic link is followed and stays; hard links stay together.

use super::{draws, folder, picture};
use std::fs;
use std::os::unix::fs::{symlink, MetadataExt};
use std::path::Path;

#[test]
fn symbolic_links() {
    let folder = folder("symbolic_links").with("there", "before");
    let picture = picture(&folder);
    let inside = folder.path().join("inside");
    fs::create_dir(&inside).expect("the folder can be written");
    let absolute = folder.path().join("by-absolute");
    for (link, to, file) in [
        ("relative", Path::new("there"), "there"),
        ("dangling", Path::new("new"), "new"),
        ("absolute", &absolute, "by-absolute"),
        ("second", Path::new("third"), "third"),
        ("chained", Path::new("./second"), "third"),
        ("down", Path::new("inside/one"), "inside/one"),
        ("inside/up", Path::new("../two"), "two"),
    ] {
        symlink(to, folder.path().join(link)).expect("the folder can be written");
        draws(&folder, link);
        assert_eq!(fs::read_link(folder.path().join(link)).expect("the link stays"), to, "{link}");
        let there = fs::symlink_metadata(folder.path().join(file)).expect("the file is there");
        assert!(there.is_file(), "{link}");
        assert!(folder.text(file) == picture, "{link}");
    }
    let inside: Vec<_> = fs::read_dir(inside).expect("it can be read").collect();
    assert_eq!(inside.len(), 2, "only the link and what the other link names");
}

#[test]
fn links_that_lead_nowhere() {
    let folder = folder("links_that_lead_nowhere");
    for (link, to) in
        [("a", "b"), ("b", "a"), ("self", "self"), ("far", "none/new"), ("dir", "new/")]
    {
        symlink(to, folder.path().join(link)).expect("the folder can be written");
    }
    for (link, why) in [
        ("a", "its symbolic links lead round in a circle, or are too many"),
        ("self", "its symbolic links lead round in a circle, or are too many"),
        ("far", "No such file or directory (os error 2)"),
        ("dir", "this names no file"),
    ] {
        let message = format!("{link}: cannot be written: {why}");
        folder.refuses(&format!("replay s --plot {link}"), &message);
        let path = folder.path().join(link);
        assert!(path.is_symlink(), "{link}");
    }
}

/// Whether the new content is longer or shorter.
#[test]
fn hard_links() {
    let folder = folder("hard_links").with("one", "before");
    let picture = picture(&folder);
    let path = |name: &str| folder.path().join(name);
    fs::hard_link(path("one"), path("two")).expect("the folder can be written");
    let inode = fs::metadata(path("two")).expect("it is there").ino();
    for before in ["before".to_owned(), String::new(), "x".repeat(3 * picture.len())] {
        folder.put("two", before);
        draws(&folder, "one");
        for name in ["one", "two"] {
            let there = fs::metadata(path(name)).expect("it is there");
            assert_eq!((there.ino(), there.nlink()), (inode, 2), "{name}");
            assert!(folder.text(name) == picture, "{name}");
        }
    }
    assert_eq!(folder.names(), ["one", "p.toml", "picture.svg", "q.toml", "s", "two"]);
}
