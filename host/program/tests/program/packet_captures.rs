//! `packet read --all`, and where the bytes come from.

use crate::folder::Folder;
use crate::run::{self, printed, prints};

const WATCHDOG: &str = "F0 81 49 81 57 00 04 0F";
const DAMAGED: &str = "F0 81 48 81 57 00 04 0F";

#[test]
fn a_capture() {
    let list = "F0 81 25 81 5E 02 1E 02 81 5A 08 81 D4 08 00 01 0F";
    prints(
        &format!("packet read rehastim2 --all {WATCHDOG} 41 42 {DAMAGED} F0 12 {list} F0 81 12"),
        &[
            "  at  bytes  number  packet",
            "   0      8       0  Watchdog",
            "   8      2          garbage: 41 42",
            "  10      8          refused, answer 3: wrong or missing checksum",
            "                       byte 12: the checksum is 1D (stuffed 81 48), and 1C (stuffed 81 49) \
             would be",
            "                         right",
            "  18      2          garbage, with 1 packet dropped by a new start byte: F0 12",
            "  20     17       2  InitChannelListMode: Low frequency factor 2: skip 2 times; Active \
             channels 15:",
            "                         channels 1, 2, 3, 4; Active low frequency channels 8: channel 4;",
            "                         Inter pulse interval coded 129: 66.0 ms;",
            "                         Main stimulation interval coded 2048: 1025.0 ms,",
            "                         Continuous channel list mode; Channel execution 1: As fast as \
             possible",
            "  37      3          unfinished at the end: F0 81 12",
            "",
            "3 packets, 1 refused; 4 bytes of garbage; 3 bytes unfinished",
        ],
    );
}

#[test]
fn two_packets() {
    prints(
        &format!("packet read rehastim2 --all {WATCHDOG} F0 81 64 81 53 07 24 02 00 C8 14 0F"),
        &[
            "  at  bytes  number  packet",
            "   0      8       0  Watchdog",
            "   8     12       7  SinglePulse, command 36: 02 00 C8 14",
            "",
            "2 packets, 0 refused; 0 bytes of garbage; 0 bytes unfinished",
        ],
    );
    prints(
        "packet read rehastim2 --all F0 81 48 81 57 07 C8 0F",
        &[
            "  at  bytes  number  packet",
            "   0      8       7  command 200: no data",
            "",
            "1 packet, 0 refused; 0 bytes of garbage; 0 bytes unfinished",
        ],
    );
}

#[test]
fn only_garbage() {
    prints(
        "packet read rehastim2 --all 41 0F",
        &[
            "  at  bytes  number  packet",
            "   0      2          garbage: 41 0F",
            "",
            "0 packets, 0 refused; 2 bytes of garbage; 0 bytes unfinished",
        ],
    );
}

/// A capture may be empty, as a readout may; a packet may not, as a frame may not.
#[test]
fn no_bytes() {
    let folder = Folder::new("packets_no_bytes").with("empty", "");
    let ran = folder.line("packet read rehastim2 empty --all --check");
    let none = "0 packets, 0 refused; 0 bytes of garbage; 0 bytes unfinished";
    assert_eq!((ran.status, ran.err.as_str()), (0, ""));
    assert_eq!(ran.out, format!("  at  bytes  number  packet\n\n{none}\n"));
    let ran = folder.line("packet read rehastim2 empty --all --json");
    assert_eq!((ran.status, ran.out.as_str()), (0, ""));
    folder.refuses("packet read rehastim2 empty", "empty: no bytes");
    folder.refuses_fed("packet read rehastim2 - --json", "# none\n", "standard input: no bytes");
}

/// In words, as a file of hex, as a file of the bytes themselves, and on standard input.
#[test]
fn files() {
    let hex = format!("{WATCHDOG} # the first\n41, 42\n0x{}", DAMAGED.replace(' ', ""));
    let bytes = b"\xF0\x81\x49\x81\x57\x00\x04\x0FAB\xF0\x81\x48\x81\x57\x00\x04\x0F";
    let folder = Folder::new("packet_files").with("hex", &hex).with("bytes", bytes);
    for flags in ["", "--all", "--json", "--all --json"] {
        let line = format!("packet read rehastim2 {flags}");
        let expected = printed(&format!("{line} {WATCHDOG} 4142 {DAMAGED}"));
        for ran in [
            folder.line(&format!("{line} hex")),
            folder.line(&format!("{line} bytes")),
            folder.fed(&format!("{line} -"), &hex),
            folder.fed(&format!("{line} -"), bytes),
        ] {
            assert_eq!((ran.status, &ran.out), (0, &expected), "{flags} {}", ran.err);
        }
    }
}

#[test]
fn bytes_that_are_none() {
    let folder = Folder::new("packet_bytes_that_are_none").with("odd", "F0\n81 4");
    for (words, message) in [
        ("odd", "odd:2: \"4\" has an odd number of hex digits, and a byte has two"),
        (".", ".: Is a directory (os error 21)"),
        (
            "nosuch",
            "<HEX>...: \"nosuch\" is neither bytes in hex ('n' is not a hex digit) nor a file (no \
             such file is there)",
        ),
        (
            "F0 odd",
            "<HEX>...: \"odd\" is neither bytes in hex ('o' is not a hex digit) nor a file (a file \
             stands alone)",
        ),
        ("- F0", "<HEX>...: standard input (-) stands alone"),
    ] {
        for flags in ["", " --all", " --json --check"] {
            folder.refuses(&format!("packet read rehastim2 {words}{flags}"), message);
        }
    }
}

#[test]
fn the_device() {
    let ran = run::line("packet read rehamove4 F0");
    assert_eq!((ran.status, ran.out.as_str()), (2, ""));
    assert!(ran.err.contains("[possible values: rehastim2, rehamove3]"), "{}", ran.err);
    let ran = run::line("packet write rehamove4 watchdog");
    assert_eq!((ran.status, ran.out.as_str()), (2, ""));
}

/// The output is the same, and the exit status tells.
#[test]
fn a_refused_packet_is_a_failure() {
    for (words, first, all) in [
        (WATCHDOG.to_owned(), 0, 0),
        (DAMAGED.to_owned(), 1, 1),
        (format!("{WATCHDOG} {DAMAGED}"), 0, 1),
        (format!("{WATCHDOG} {WATCHDOG}"), 0, 0),
        (format!("41 {WATCHDOG}"), 0, 0),
        (format!("{WATCHDOG} 41"), 0, 1),
        ("41".to_owned(), 1, 1),
        ("F0 81".to_owned(), 1, 1),
    ] {
        for (flags, status) in
            [("", first), ("--json", first), ("--all", all), ("--all --json", all)]
        {
            let line = format!("packet read rehastim2 {words} {flags}");
            let asked = run::line(&format!("{line} --check"));
            let not_asked = run::line(&line);
            assert_eq!((asked.status, not_asked.status), (status, 0), "{line}");
            assert_eq!((asked.out, asked.err), (not_asked.out, String::new()), "{line}");
        }
    }
}

/// A capture of a megabyte is read in a moment, whatever is in it.
#[test]
fn a_long_capture() {
    let folder = Folder::new("packet_long_capture");
    let watchdog = b"\xF0\x81\x49\x81\x57\x00\x04\x0F".repeat(131_072);
    for (bytes, totals) in [
        (watchdog, "131,072 packets, 0 refused; 0 bytes of garbage; 0 bytes unfinished"),
        (
            vec![0xF0; 1 << 20],
            "0 packets, 0 refused; 1,048,575 bytes of garbage; 1 byte unfinished",
        ),
        (
            vec![0xFF; 1 << 20],
            "0 packets, 0 refused; 1,048,576 bytes of garbage; 0 bytes unfinished",
        ),
    ] {
        let ran = folder.fed("packet read rehastim2 - --all", &bytes);
        assert_eq!((ran.status, ran.err.as_str()), (0, ""));
        assert_eq!(ran.out.lines().last(), Some(totals));
    }
}
