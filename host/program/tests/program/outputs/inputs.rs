//! Files that the same run reads are not written, whatever they are called.

use super::{folder, shell};
use std::fs;
use std::os::unix::fs::symlink;

const RUN: &str = "replay s --profile p.toml --against q.toml --plot";

const INPUTS: [(&str, &str); 3] =
    [("s", "the session"), ("p.toml", "the profile"), ("q.toml", "the second profile")];

#[test]
fn by_their_names() {
    let folder = folder("by_their_names");
    for (name, what) in INPUTS {
        let text = folder.text(name);
        let message = format!("{name}: cannot be written: it is {what} that is read");
        folder.refuses(&format!("{RUN} {name}"), &message);
        assert_eq!(folder.text(name), text);
    }
}

#[test]
fn by_other_names() {
    let folder = folder("by_other_names");
    let path = folder.path();
    for (name, what) in INPUTS {
        let text = folder.text(name);
        let [soft, far, hard] = ["soft", "far", "hard"].map(|kind| format!("{kind}-{name}"));
        symlink(name, path.join(&soft)).expect("the folder can be written");
        symlink(path.join(&soft), path.join(&far)).expect("the folder can be written");
        fs::hard_link(path.join(name), path.join(&hard)).expect("the folder can be written");
        let absolute = path.join(name).display().to_string();
        for other in [format!("./{name}"), soft, far, hard, absolute] {
            let message = format!("{other}: cannot be written: it is {what} that is read, {name}");
            folder.refuses(&format!("{RUN} {other}"), &message);
        }
        assert_eq!(folder.text(name), text);
    }
}

/// The session may be named by a link, too.
#[test]
fn inputs_that_are_links() {
    let folder = folder("inputs_that_are_links");
    symlink("s", folder.path().join("link")).expect("the folder can be written");
    let message = "s: cannot be written: it is the session that is read, link";
    folder.refuses("replay link --plot s", message);
}

/// The session `-` is what standard input is.
#[test]
fn standard_input() {
    let folder = folder("standard_input").with("-", "0 C0\n");
    let text = folder.text("s");
    let ran = shell(&folder, "\"$yarrowbell\" replay - --plot s <s");
    assert_eq!((ran.status, ran.out.as_str()), (2, ""));
    assert_eq!(ran.err, "s: cannot be written: it is the session that is read\n");
    assert_eq!(folder.text("s"), text);
}
