//! `packet read rehamove3`: packets that the library refuses, with the place and the reason.

use crate::run::{ends, printed};

const CHECKSUM: &str = "answer 3: wrong or missing checksum";
const NOT_GOOD: &str =
    "answer 4: wrong length, a stuffed pair that is never written, or value not good";

/// These bytes are refused with this answer and reason.
fn refused(bytes: &str, used: usize, answer: &str, reason: &str) {
    ends(
        &format!("packet read rehamove3 {bytes}"),
        &[&format!("bytes used {used}"), answer, reason],
    );
}

#[test]
fn a_checksum() {
    let missing = "the stop byte stands where the checksum would";
    refused("F0 0F", 2, CHECKSUM, &format!("byte 1: {missing}"));
    refused("F0 81 55 81 58 0F", 6, CHECKSUM, &format!("byte 5: {missing}"));
    refused("F0 81 55 81 58 81 55 81 0F 0F", 10, CHECKSUM, {
        "byte 8: the checksum is 00 5A (stuffed 81 55 81 0F), and 00 00 (stuffed 81 55 81 55) would be \
         right"
    });
    refused("F0 81 55 81 58 81 55 0F", 8, CHECKSUM, &format!("byte 7: {missing}"));
    refused(
        "F0 81 55 81 59 81 9C 78 81 08 04 0F",
        12,
        CHECKSUM,
        "byte 7: 78 stands where 81, the stuffing byte of the checksum, would",
    );
    // The byte that is wrong is named: the low one, or the high one.
    refused(
        "41 F0 81 55 81 59 81 9C 81 79 08 04 0F",
        13,
        CHECKSUM,
        "byte 9: the checksum is C9 2C (stuffed 81 9C 81 79), and C9 2D (stuffed 81 9C 81 78) would be \
         right",
    );
    refused(
        "F0 81 55 81 59 81 9D 81 78 08 04 0F",
        12,
        CHECKSUM,
        "byte 6: the checksum is C8 2D (stuffed 81 9D 81 78), and C9 2D (stuffed 81 9C 81 78) would be \
         right",
    );
}

#[test]
fn a_length() {
    refused(
        "F0 11 55 81 59 81 9C 81 78 08 04 0F",
        12,
        NOT_GOOD,
        "byte 1: 11 stands where 81, the stuffing byte of the length, would",
    );
    refused(
        "F0 81 55 81 5E 81 9C 81 78 08 04 0F",
        12,
        NOT_GOOD,
        "byte 4: the length is 11 (stuffed 81 55 81 5E), and 12 (stuffed 81 55 81 59) would be right",
    );
    refused(
        "F0 81 54 81 59 81 9C 81 78 08 04 0F",
        12,
        NOT_GOOD,
        "byte 2: the length is 268 (stuffed 81 54 81 59), and 12 (stuffed 81 55 81 59) would be right",
    );
}

/// 1,200 bytes are good, one more is not, though its length says so.
#[test]
fn the_longest() {
    let long = |header: &str, size: usize| format!("F0 {header} 00 1E {} 0F", "22 ".repeat(size));
    let out = printed(&format!("packet read rehamove3 {}", long("81 51 81 E5 81 BB 81 3C", 1_188)));
    assert!(
        out.ends_with("bytes used 1200\nanswer 0: good packet\n"),
        "{}",
        &out[out.len() - 600..]
    );
    refused(
        &long("81 51 81 E4 81 24 81 95", 1_189),
        1_201,
        NOT_GOOD,
        "byte 2: the length is 1201 (stuffed 81 51 81 E4), and none is right for 1,201 bytes: a packet \
         has at most 1,200 (source 002, section 2.2)",
    );
}

#[test]
fn what_stands_between() {
    refused(
        "F0 81 55 81 5B 81 22 81 CF 08 04 81 33 0F",
        14,
        NOT_GOOD,
        "byte 11: 81 33 is no stuffed pair: 81 A5, 81 5A and 81 D4 are",
    );
    refused(
        "F0 81 55 81 5F 81 55 81 55 0F",
        10,
        NOT_GOOD,
        "byte 9: the stop byte stands where the packet number would",
    );
    refused(
        "F0 81 55 81 5E 81 D4 81 5D 08 0F",
        11,
        NOT_GOOD,
        "byte 10: the stop byte stands where the command would",
    );
}

#[test]
fn data() {
    let section = "would be right (source 002, section 4)";
    for (bytes, used, reason) in [
        ("F0 81 55 81 58 81 20 81 11 08 04 01 0F", 13, "byte 11: Ll_stop has 1 data byte, and 0"),
        (
            "F0 81 55 81 47 81 A8 81 79 04 02 82 81 5A A5 50 00 0F",
            18,
            "byte 17: Ll_channel_config of 3 points has 5 data bytes, and 13",
        ),
        (
            "F0 81 55 81 59 81 B9 81 D3 04 02 0F",
            12,
            "byte 11: Ll_channel_config of 1 point has 0 data bytes, and 5",
        ),
    ] {
        refused(bytes, used, NOT_GOOD, &format!("{reason} {section}"));
    }
}

#[test]
fn values() {
    for (bytes, used, reason) in [
        (
            "F0 81 55 81 58 81 68 81 5B 04 00 0E 0F",
            13,
            "byte 11: High Voltage 7 is not good: High Voltage is 0 to 6 (source 002, section 4.2)",
        ),
        (
            "F0 81 55 81 58 81 AB 81 C7 04 00 13 0F",
            13,
            "byte 11: Reserved 1 is not good: Reserved is 0 (source 002, section 4.2)",
        ),
        (
            "F0 81 55 81 58 81 8A 81 C7 04 01 03 0F",
            13,
            "byte 11: Result 3 is not good: Result is 0, 1, 2, 4, 7, 10 or 11 (source 002, section 6)",
        ),
        (
            "F0 81 55 81 5B 81 69 81 BB 04 03 0A 04 0F",
            14,
            "byte 12: Electrode error channel 4 is not good: Electrode error channel is 0 to 3 if \
             Result is 10 (source 002, section 4.3)",
        ),
        (
            "F0 81 55 81 47 81 39 81 BD 04 02 90 81 5A A5 50 00 0F",
            18,
            "byte 11: Reserved 1 is not good: Reserved is 0 (source 002, section 4.2)",
        ),
        (
            "F0 81 55 81 47 81 9F 81 09 04 02 80 81 5A A9 64 00 0F",
            18,
            "byte 14: Current 601 of point 1 is not good: Current is coded 40 to 560, -130.0 to 130.0 \
             mA (document 02, request 13)",
        ),
        (
            "F0 81 55 81 4D 81 E9 81 F6 04 02 81 D4 81 5A A5 50 00 81 5A A4 10 01 0F",
            24,
            "byte 21: Reserved 1 of point 2 is not good: Reserved is 0 (source 002, section 4.2)",
        ),
    ] {
        refused(bytes, used, NOT_GOOD, reason);
    }
}

/// Points that are not good are shown and marked; no charge is told of such a pulse.
#[test]
fn points_that_are_not_good() {
    let out = printed(
        "packet read rehamove3 F0 81 55 81 4D 81 7B 81 E2 04 02 81 D4 81 5A A5 50 00 81 5A A0 9C 00 0F",
    );
    let points = [
        "point  duration  coded    current        charge",
        "    1    250 µs    340    20.0 mA      5,000 nC",
        "    2    250 µs     39  -130.5 mA    -32,625 nC, Current not good: Current is coded 40 to 560, \
         -130.0 to 130.0 mA (document 02, request 13)",
    ];
    assert!(out.contains(&format!("\n\n{}\n\nunstuffed", points.join("\n"))), "{out}");
}
