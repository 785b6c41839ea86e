//! `packet read rehamove3 --all`, and where the bytes come from.

use crate::folder::Folder;
use crate::pulses::{CHARGED, CONFIG, INIT, STOP};
use crate::run::{self, printed, prints};

#[test]
fn a_capture() {
    let damaged = "F0 81 55 81 59 81 9C 81 79 08 04 0F";
    let other = "F0 81 55 81 58 81 75 81 29 00 1E 00 0F";
    prints(
        &format!("packet read rehamove3 --all {INIT} 41 42 {CONFIG} {damaged} {CHARGED} {other} F0 81"),
        &[
            "  at  bytes  number  packet",
            "   0     13       0  Ll_init: High Voltage 0: Standard (150 V)",
            "  13      2          garbage: 41 42",
            "  15     27       1  Ll_channel_config: Execution Stimulation 1: Stimulation will be executed;",
            "                         Channel selection 0: red; Number of points 3: coded 2; 250 µs 20.0 mA;",
            "                         100 µs 0.0 mA; 250 µs -20.0 mA; net charge 0",
            "  42     12          refused, answer 3: wrong or missing checksum",
            "                       byte 50: the checksum is C9 2C (stuffed 81 9C 81 79), and C9 2D (stuffed 81",
            "                         9C 81 78) would be right",
            "  54     26       1  Ll_channel_config: Execution Stimulation 1: Stimulation will be executed;",
            "                         Channel selection 0: red; Number of points 3: coded 2; 250 µs 20.0 mA;",
            "                         100 µs 0.0 mA; 200 µs -20.0 mA; net charge 2,000 half mA µs = 1,000 nC",
            "  80     13       0  Ml_init, command 30: 00",
            "  93      2          unfinished at the end: F0 81",
            "",
            "5 packets, 1 refused; 2 bytes of garbage; 2 bytes unfinished",
        ],
    );
}

/// In words, as a file of hex, as a file of the bytes themselves, and on standard input.
#[test]
fn files() {
    let bytes: Vec<u8> = STOP
        .split(' ')
        .map(|byte| u8::from_str_radix(byte, 16).expect("the example is hex"))
        .collect();
    let folder = Folder::new("pulse_files").with("hex", STOP).with("bytes", &bytes);
    for flags in ["", "--all", "--json", "--all --json"] {
        let line = format!("packet read rehamove3 {flags}");
        let expected = printed(&format!("{line} {STOP}"));
        for ran in [
            folder.line(&format!("{line} hex")),
            folder.line(&format!("{line} bytes")),
            folder.fed(&format!("{line} -"), STOP),
            folder.fed(&format!("{line} -"), &bytes),
        ] {
            assert_eq!((ran.status, &ran.out), (0, &expected), "{flags} {}", ran.err);
        }
    }
}

/// The output is the same, and the exit status tells: a net charge is no reason to refuse.
#[test]
fn a_refused_packet_is_a_failure() {
    let damaged = "F0 81 55 81 59 81 9C 81 79 08 04 0F";
    for (words, first, all) in [
        (STOP.to_owned(), 0, 0),
        (CHARGED.to_owned(), 0, 0),
        (damaged.to_owned(), 1, 1),
        (format!("{STOP} {damaged}"), 0, 1),
        (format!("{STOP} 41"), 0, 1),
    ] {
        for (flags, status) in
            [("", first), ("--json", first), ("--all", all), ("--all --json", all)]
        {
            let line = format!("packet read rehamove3 {words} {flags}");
            let asked = run::line(&format!("{line} --check"));
            let not_asked = run::line(&line);
            assert_eq!((asked.status, not_asked.status), (status, 0), "{line}");
            assert_eq!((asked.out, asked.err), (not_asked.out, String::new()), "{line}");
        }
    }
}

/// A packet of one device is none of the other.
#[test]
fn the_other_device() {
    for (device, bytes, reason) in [
        ("rehastim2", STOP, "byte 2: the checksum is 00 (stuffed 81 55), and "),
        (
            "rehamove3",
            "F0 81 49 81 57 00 04 0F",
            "byte 5: 00 stands where 81, the stuffing byte of the checksum, would",
        ),
    ] {
        let out = printed(&format!("packet read {device} {bytes}"));
        let last = out.lines().last().expect("a reason");
        assert!(last.starts_with(reason), "{out}");
    }
}

/// A capture of a megabyte is read in a moment.
#[test]
fn a_long_capture() {
    let folder = Folder::new("pulse_long_capture");
    let stop = b"\xF0\x81\x55\x81\x59\x81\x9C\x81\x78\x08\x04\x0F".repeat(87_381);
    let ran = folder.fed("packet read rehamove3 - --all", &stop);
    assert_eq!((ran.status, ran.err.as_str()), (0, ""));
    let totals = "87,381 packets, 0 refused; 0 bytes of garbage; 0 bytes unfinished";
    assert_eq!(ran.out.lines().last(), Some(totals));
}
