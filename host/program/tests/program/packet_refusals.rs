//! `packet read`: packets that the library refuses, with the place and the reason.

use crate::run::{ends, printed};

const CHECKSUM: &str = "answer 3: wrong or missing checksum";
const NOT_GOOD: &str =
    "answer 4: wrong length, a stuffed pair that is never written, or value not good";

/// These bytes are refused with this answer and reason.
fn refused(bytes: &str, used: usize, answer: &str, reason: &str) {
    ends(
        &format!("packet read rehastim2 {bytes}"),
        &[&format!("bytes used {used}"), answer, reason],
    );
}

#[test]
fn an_unfinished_packet() {
    let answer = "answer 1: packet not finished";
    let no_start = "there is no start byte, an F0 that does not stand straight after 81";
    let no_stop =
        "the packet that begins here has no stop byte, a 0F that does not stand straight \
                   after 81";
    for bytes in ["41", "0F", "81 F0 81 49 81 57 00 04 0F"] {
        refused(bytes, 0, answer, no_start);
    }
    refused("F0", 0, answer, &format!("byte 0: {no_stop}"));
    refused("41 F0 81 49 81 57 00 04", 0, answer, &format!("byte 1: {no_stop}"));
    refused("F0 81 49 F0 81 0F", 0, answer, &format!("byte 3: {no_stop}"));
}

#[test]
fn a_checksum() {
    refused("F0 0F", 2, CHECKSUM, "byte 1: the stop byte stands where the checksum would");
    refused(
        "F0 49 81 57 00 04 0F",
        7,
        CHECKSUM,
        "byte 1: 49 stands where 81, the stuffing byte of the checksum, would",
    );
    refused(
        "41 F0 81 48 81 57 00 04 0F",
        9,
        CHECKSUM,
        "byte 3: the checksum is 1D (stuffed 81 48), and 1C (stuffed 81 49) would be right",
    );
    // It covers nothing where the length is not whole.
    refused(
        "F0 81 49 0F",
        4,
        CHECKSUM,
        "byte 2: the checksum is 1C (stuffed 81 49), and 00 (stuffed 81 55) would be right",
    );
}

#[test]
fn a_length() {
    refused("F0 81 55 0F", 4, NOT_GOOD, "byte 3: the stop byte stands where the length would");
    refused(
        "F0 81 55 11 0F",
        5,
        NOT_GOOD,
        "byte 3: 11 stands where 81, the stuffing byte of the length, would",
    );
    refused(
        "F0 81 49 81 56 00 04 0F",
        8,
        NOT_GOOD,
        "byte 4: the length is 3 (stuffed 81 56), and 2 (stuffed 81 57) would be right",
    );
    let zeros = "00 ".repeat(300);
    refused(
        &format!("F0 81 55 81 55 {zeros} 0F"),
        306,
        NOT_GOOD,
        "byte 4: the length is 0 (stuffed 81 55), and none is right for 300 bytes",
    );
}

#[test]
fn what_stands_between() {
    refused(
        "F0 81 C4 81 51 00 04 81 33 0F",
        10,
        NOT_GOOD,
        "byte 7: 81 33 is no stuffed pair: 81 A5, 81 5A and 81 D4 are",
    );
    refused(
        "F0 81 55 81 55 0F",
        6,
        NOT_GOOD,
        "byte 5: the stop byte stands where the packet number would",
    );
    refused(
        "F0 81 55 81 54 00 0F",
        7,
        NOT_GOOD,
        "byte 6: the stop byte stands where the command would",
    );
    let data = "01 ".repeat(61);
    refused(
        &format!("F0 81 1F 81 6A 00 24 {data} 0F"),
        69,
        NOT_GOOD,
        "byte 67: the data has 61 bytes, and at most 60 would be right (source 000, table 5)",
    );
}

#[test]
fn data() {
    let section = "would be right (source 000, section 4)";
    for (bytes, used, reason) in [
        ("F0 81 47 81 57 01 01 0F", 8, "byte 7: Init has 0 data bytes, and 1"),
        ("F0 81 7B 81 51 01 01 05 06 0F", 10, "byte 8: Init has 2 data bytes, and 1"),
        (
            "F0 81 AD 81 51 09 0B F8 02 0F",
            10,
            "byte 8: GetStimulationModeAck has 2 data bytes, and 1",
        ),
    ] {
        refused(bytes, used, NOT_GOOD, &format!("{reason} {section}"));
    }
}

#[test]
fn values() {
    refused(
        "F0 81 0F 81 56 01 02 05 0F",
        9,
        NOT_GOOD,
        "byte 7: Result 5 is not good: Result is 0 to -8 (source 000, section 5.1)",
    );
    refused(
        "F0 81 16 81 51 09 0B 00 03 0F",
        10,
        NOT_GOOD,
        "byte 8: Stimulation mode 3 is not good: Stimulation mode is 0, 1 or 2 (source 000, section \
         4.2)",
    );
    let list = "F0 81 B1 81 5C 02 1E 08 05 00 0D 08 01 02 0F";
    refused(
        list,
        15,
        NOT_GOOD,
        "byte 7: Low frequency factor 8 is not good: Low frequency factor is 0 to 7 (source 000, \
         section 4.3)",
    );
    // The first is the reason, and each is marked.
    let out = printed(&format!("packet read rehastim2 {list}"));
    for fault in [
        "8: skip 8 times, not good: Low frequency factor is 0 to 7 (",
        "2049: 1025.5 ms, Continuous channel list mode, not good: Main stimulation interval coded is \
         0 to 2048, 1.0 to 1025.0 ms (",
        "2, not good: Channel execution is 0 or 1 (",
    ] {
        assert!(out.contains(fault), "{fault}: {out}");
    }
}
