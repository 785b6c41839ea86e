//! `-` for standard input, wherever bytes or a file are taken.

use crate::folder::Folder;
use crate::run::printed;

const SESSION: &str = "0 88 01 20 00 30 12\n5 BB 01 48 28 22 2C 1E\n300 end\n";
const PROFILE: &str = "watchdog = 250\n";

/// Standard input is as good as a file, or as the words.
#[test]
fn takes_the_place_of_a_file() {
    let folder = Folder::new("takes_the_place_of_a_file")
        .with("s", SESSION)
        .with("p.toml", PROFILE)
        .with("script", "at 5 stop # early\n")
        .with("t", "03 FF 00 00\n00 02 # a trip");
    for (line, file, input) in [
        ("replay - --profile p.toml", "replay s --profile p.toml", "s"),
        ("replay s --profile -", "replay s --profile p.toml", "p.toml"),
        ("replay s --against -", "replay s --against p.toml", "p.toml"),
        ("replay - --calls", "replay s --calls", "s"),
        ("trace -", "trace t", "t"),
        ("trace -- -", "trace t", "t"),
        ("session -", "session script", "script"),
        ("session --back -", "session --back s", "s"),
    ] {
        let (ran, expected) = (folder.fed(line, folder.text(input)), folder.line(file));
        assert_eq!((expected.status, expected.err.as_str()), (0, ""), "{file}");
        assert_eq!((ran.status, ran.out, ran.err), (0, expected.out, String::new()), "{line}");
    }
    let frame = printed("read E2 21 48 78 --channels 1");
    for input in [&b"E2 21 # two\n0x48,0x78"[..], b"\xE2\x21\x48\x78"] {
        assert_eq!(folder.fed("read - --channels 1", input).out, frame);
    }
}

/// A file of that name has a folder before it.
#[test]
fn a_file_of_that_name() {
    let folder = Folder::new("a_file_of_that_name").with("-", SESSION);
    assert_eq!(folder.line("replay ./-").out, folder.fed("replay -", SESSION).out);
    assert_eq!(folder.fed("trace ./-", "03 FF 00 00 00 02").status, 2);
}

#[test]
fn what_is_wrong_with_it() {
    let folder = Folder::new("what_is_wrong_with_it").with("s", SESSION);
    for (line, input, message) in [
        (
            "replay -",
            &b"0 C0\n\n5 C"[..],
            ":3: \"C\" has an odd number of hex digits, and a byte has two",
        ),
        ("replay -", b"0 C0 # \xB5s", ":1: not UTF-8, and so no text"),
        (
            "replay s --profile -",
            b"\ncharge = -1",
            ":2: charge: -1 is out of its range, 0 to 63500",
        ),
        (
            "replay s --against -",
            b"watchdog = 0",
            ":1: watchdog: 0 is out of its range, 1 to 600000",
        ),
        (
            "session -",
            b"\n\nat 5 stop now",
            ":3: Found argument 'now' which wasn't expected, or isn't valid in this context",
        ),
        ("session --back -", b"5 C0\n4 C0", ":2: the clock goes back, from 5 to 4"),
        ("read -", b"E2 21\n4", ":2: \"4\" has an odd number of hex digits, and a byte has two"),
        ("read -", b"", ": no bytes"),
        ("read -", b"# nothing\n", ": no bytes"),
        ("trace -", b"03 00\n0G", ":2: 'G' is not a hex digit"),
    ] {
        folder.refuses_fed(line, input, &format!("standard input{message}"));
    }
}

#[test]
fn read_once() {
    let folder = Folder::new("read_once").with("s", SESSION);
    for (line, first, second) in [
        ("replay - --profile -", "<SESSION>", "--profile"),
        ("replay - --against -", "<SESSION>", "--against"),
        ("replay s --profile - --against -", "--profile", "--against"),
        ("replay --against - --profile - -", "<SESSION>", "--profile"),
    ] {
        let message = format!("{second}: standard input can be read once, and {first} reads it");
        folder.refuses_fed(line, SESSION, &message);
    }
    for line in ["read - -", "read - C0", "read C0 -", "trace - -", "trace - 03", "trace s -"] {
        folder.refuses_fed(line, "C0", "<HEX>...: standard input (-) stands alone");
    }
}
