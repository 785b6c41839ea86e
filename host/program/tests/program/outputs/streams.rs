//! Standard output and what else a shell hands over open.

use super::{folder, picture, shell};

const RUN: &str = "\"$yarrowbell\" replay s --plot";

/// The picture stands behind all that is printed, whatever standard output is.
#[test]
fn standard_output() {
    let folder = folder("standard_output");
    let story = folder.line("replay s").out;
    let both = story + &picture(&folder);
    for path in ["/dev/stdout", "/dev/fd/1", "/proc/self/fd/1"] {
        assert!(shell(&folder, &format!("{RUN} {path}")).out == both, "{path}, a pipe");
        let line = format!("echo before >out; {RUN} {path} >>out");
        assert_eq!(shell(&folder, &line).status, 0, "{line}");
        assert!(folder.text("out") == format!("before\n{both}"), "{line}");
        let line = format!("{{ {RUN} {path}; echo behind; }} >out");
        assert_eq!(shell(&folder, &line).status, 0, "{line}");
        assert!(folder.text("out") == format!("{both}behind\n"), "{line}");
    }
    let printed = folder.line("lesson ring").out;
    let ran = folder.line("lesson ring --plot /dev/stdout");
    assert!(ran.out.starts_with(&(printed + "<svg")), "{}", ran.out);
    let ran = shell(&folder, &format!("{RUN} /dev/stderr"));
    assert_eq!(ran.status, 0);
    assert!(ran.err == picture(&folder), "standard error has another picture");
}

/// One output more than standard output, by a number.
#[test]
fn by_number() {
    let folder = folder("by_number");
    let picture = picture(&folder);
    let line = format!("{RUN} /dev/fd/3 3>&1 >story");
    assert!(shell(&folder, &line).out == picture, "{line}");
    let line = format!("{RUN} /dev/fd/3 3>out >story");
    assert_eq!(shell(&folder, &line).status, 0, "{line}");
    assert!(folder.text("out") == picture, "{line}");
    let line = format!("echo before >out; {RUN} /dev/fd/3 3>>out >story");
    assert_eq!(shell(&folder, &line).status, 0, "{line}");
    assert!(folder.text("out") == format!("before\n{picture}"), "{line}");
    assert_eq!(folder.text("story"), folder.line("replay s").out);
    let ran = shell(&folder, &format!("{RUN} /dev/fd/3 3<s"));
    assert_eq!((ran.status, ran.out.as_str()), (2, ""));
    let message = "/dev/fd/3: cannot be written: it is the session that is read, s\n";
    assert_eq!(ran.err, message);
    let ran = shell(&folder, &format!("{RUN} /dev/fd/9"));
    assert_eq!((ran.status, ran.out.as_str()), (2, ""));
}

/// A file that a shell has put what is printed into is not replaced under it.
#[test]
fn the_file_that_is_printed_to() {
    let folder = folder("the_file_that_is_printed_to");
    let ran = shell(&folder, &format!("{RUN} out >out"));
    assert_eq!((ran.status, folder.text("out").as_str()), (2, ""));
    assert_eq!(ran.err, "out: cannot be written: it is standard output\n");
    let ran = shell(&folder, &format!("{RUN} ./out 2>out"));
    assert_eq!((ran.status, ran.out.as_str()), (2, ""));
    assert_eq!(folder.text("out"), "./out: cannot be written: it is standard error\n");
}
