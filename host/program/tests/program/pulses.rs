//! `packet read rehamove3`: the first packet, byte by byte, and a pulse point by point.

use crate::run::{ends, printed, prints};

/// Source 002, section 7.1.
pub const INIT: &str = "F0 81 55 81 58 81 55 81 55 00 00 00 0F";
pub const CONFIG: &str =
    "F0 81 55 81 4E 81 D3 81 AF 04 02 82 81 5A A5 50 00 06 44 B0 00 81 5A A4 10 00 0F";
pub const STOP: &str = "F0 81 55 81 59 81 9C 81 78 08 04 0F";

/// The second, but with 200 µs in its last point: a net charge.
pub const CHARGED: &str =
    "F0 81 55 81 4F 81 BE 81 B7 04 02 82 81 5A A5 50 00 06 44 B0 00 0C 84 10 00 0F";

#[test]
fn an_init() {
    prints(
        &format!("packet read rehamove3 {INIT}"),
        &[
            "Ll_init: 13 bytes",
            "",
            "  at  hex    plain",
            "   0  F0            start byte",
            "   1  81 55  00     length MSB, always stuffed",
            "   3  81 58  0D     length LSB, always stuffed",
            "   5  81 55  00     checksum MSB, always stuffed",
            "   7  81 55  00     checksum LSB, always stuffed",
            "   9  00     00     Packet number, Command number bits 9,8",
            "  10  00     00     Command number bits 7 to 0",
            "  11  00     00     Reserved, High Voltage, Reserved",
            "  12  0F            stop byte",
            "",
            "Packet number                       0",
            "Command number                      0: Ll_init",
            "High Voltage                        0: Standard (150 V)",
            "",
            "unstuffed 00 00 00",
            "checksum of bytes 9 to 11 as they stand is 00 00, stuffed 81 55 81 55; the packet has 00 \
             00, stuffed 81 55 81 55: right",
            "length of the whole packet is 13, stuffed 81 55 81 58; the packet has 13, stuffed 81 55 81 \
             58: right",
            "bytes used 13",
            "answer 0: good packet",
        ],
    );
}

/// Every byte of each point, garbage before, other bytes behind.
#[test]
fn a_pulse() {
    prints(
        &format!("packet read rehamove3 41 0F {CONFIG} F0"),
        &[
            "Ll_channel_config: 27 bytes",
            "",
            "  at  hex    plain",
            "   0  garbage: 41 0F",
            "   2  F0            start byte",
            "   3  81 55  00     length MSB, always stuffed",
            "   5  81 4E  1B     length LSB, always stuffed",
            "   7  81 D3  86     checksum MSB, always stuffed",
            "   9  81 AF  FA     checksum LSB, always stuffed",
            "  11  04     04     Packet number, Command number bits 9,8",
            "  12  02     02     Command number bits 7 to 0",
            "  13  82     82     Execution Stimulation, Channel selection, Reserved, Number of points",
            "  14  81 5A  0F     point 1: Duration bits 11 to 4, stuffed",
            "  16  A5     A5     point 1: Duration bits 3 to 0, Current bits 9 to 6",
            "  17  50     50     point 1: Current bits 5 to 0, Reserved bits 9,8",
            "  18  00     00     point 1: Reserved bits 7 to 0",
            "  19  06     06     point 2: Duration bits 11 to 4",
            "  20  44     44     point 2: Duration bits 3 to 0, Current bits 9 to 6",
            "  21  B0     B0     point 2: Current bits 5 to 0, Reserved bits 9,8",
            "  22  00     00     point 2: Reserved bits 7 to 0",
            "  23  81 5A  0F     point 3: Duration bits 11 to 4, stuffed",
            "  25  A4     A4     point 3: Duration bits 3 to 0, Current bits 9 to 6",
            "  26  10     10     point 3: Current bits 5 to 0, Reserved bits 9,8",
            "  27  00     00     point 3: Reserved bits 7 to 0",
            "  28  0F            stop byte",
            "",
            "Packet number                       1",
            "Command number                      2: Ll_channel_config",
            "Execution Stimulation               1: Stimulation will be executed",
            "Channel selection                   0: red",
            "Number of points                    3: coded 2",
            "",
            "point  duration  coded    current        charge",
            "    1    250 µs    340    20.0 mA      5,000 nC",
            "    2    100 µs    300     0.0 mA          0 nC",
            "    3    250 µs    260   -20.0 mA     -5,000 nC",
            "charge above zero 10,000 half mA µs = 5,000 nC",
            "charge below zero -10,000 half mA µs = -5,000 nC",
            "net charge 0",
            "",
            "unstuffed 04 02 82 0F A5 50 00 06 44 B0 00 0F A4 10 00",
            "checksum of bytes 11 to 27 as they stand is 86 FA, stuffed 81 D3 81 AF; the packet has 86 \
             FA, stuffed 81 D3 81 AF: right",
            "length of the whole packet is 27, stuffed 81 55 81 4E; the packet has 27, stuffed 81 55 81 \
             4E: right",
            "bytes used 29",
            "bytes behind, not used: F0",
            "answer 0: good packet",
        ],
    );
}

/// Half milliamps, no time, the ends of both ranges; and a net charge, which is read all the same.
#[test]
fn charges() {
    let bytes =
        "F0 81 55 81 48 81 87 81 20 14 02 63 00 08 C0 00 FF F4 B4 00 FF F4 AC 00 00 10 A0 00 0F";
    let out = printed(&format!("packet read rehamove3 {bytes}"));
    let points = [
        "point  duration  coded    current        charge",
        "    1      0 µs    560   130.0 mA          0 nC",
        "    2   4095 µs    301     0.5 mA    2,047.5 nC",
        "    3   4095 µs    299    -0.5 mA   -2,047.5 nC",
        "    4      1 µs     40  -130.0 mA       -130 nC",
        "charge above zero 4,095 half mA µs = 2,047.5 nC",
        "charge below zero -4,355 half mA µs = -2,177.5 nC",
        "net charge -260 half mA µs = -130 nC: a pulse with a net charge is not written (document 02, \
         request 13)",
    ];
    assert!(out.contains(&format!("\n\n{}\n\n", points.join("\n"))), "{out}");
    assert!(out.ends_with("answer 0: good packet\n"), "{out}");
    for line in [
        "Execution Stimulation               0: No Stimulation\n",
        "Channel selection                   3: white\n",
        "Number of points                    4: coded 3\n",
    ] {
        assert!(out.contains(line), "{line}: {out}");
    }
}

/// The fields of the other carried commands.
#[test]
fn fields() {
    for (bytes, lines) in [
        (
            "F0 81 55 81 58 81 28 81 DF 04 00 0A 0F",
            &["High Voltage                        5: 120 V"][..],
        ),
        (
            "F0 81 55 81 58 81 41 81 3C FC 01 0B 0F",
            &[
                "Packet number                      63",
                "Command number                      1: Ll_init_ack",
                "Result                             11: Unknown Command",
            ],
        ),
        (
            "F0 81 55 81 5B 81 39 81 1E 04 03 0A 01 0F",
            &[
                "Command number                      3: Ll_channel_config_ack",
                "Result                             10: Electrode error",
                "Electrode error channel             1: blue",
            ],
        ),
        (
            "F0 81 55 81 5A 81 8A 81 69 04 03 00 81 A5 0F",
            &[
                "Result                              0: No Error",
                "Electrode error channel           240: of no meaning, for there is no electrode error",
            ],
        ),
        (STOP, &["Command number                      4: Ll_stop"]),
        (
            "F0 81 55 81 58 81 03 81 01 08 05 00 0F",
            &[
                "Command number                      5: Ll_stop_ack",
                "Result                              0: No Error",
            ],
        ),
    ] {
        let out = printed(&format!("packet read rehamove3 {bytes}"));
        let fields = out.split("\n\n").nth(2).expect("the fields stand third");
        assert!(fields.ends_with(&lines.join("\n")), "{out}");
        assert!(out.ends_with("answer 0: good packet\n"), "{out}");
    }
}

/// Commands that are not carried are good packets, by their names in the paper, if they have one: an
/// example of section 7.2.
#[test]
fn other_commands() {
    let told = ", a command whose data is given back as bytes";
    ends(
        "packet read rehamove3 F0 81 55 81 58 81 16 81 94 08 24 02 0F",
        &[
            "   9  08     08     Packet number, Command number bits 9,8",
            "  10  24     24     Command number bits 7 to 0",
            "  11  02     02     data byte 1",
            "  12  0F            stop byte",
            "",
            "Packet number                       2",
            &format!("Command number                     36: Ml_get_current_data{told}"),
            "",
            "unstuffed 08 24 02",
            "checksum of bytes 9 to 11 as they stand is 43 C1, stuffed 81 16 81 94; the packet has 43 \
             C1, stuffed 81 16 81 94: right",
            "length of the whole packet is 13, stuffed 81 55 81 58; the packet has 13, stuffed 81 55 81 \
             58: right",
            "bytes used 13",
            "answer 0: good packet",
        ],
    );
    let out = printed("packet read rehamove3 F0 81 55 81 5B 81 98 81 99 1F FF 81 A5 0F");
    assert!(out.starts_with("Packet: 14 bytes\n"), "{out}");
    assert!(out.contains(&format!("Command number                   1023{told}\n")), "{out}");
}

/// A byte of the checksum that is A5 is stuffed to 81 F0, one that is 5A to 81 0F: neither is a
/// start or a stop.
#[test]
fn marks_behind_the_stuffing_byte() {
    for (bytes, row) in [
        (
            "F0 81 55 81 58 81 F0 81 83 20 01 01 0F",
            "   5  81 F0  A5     checksum MSB, always stuffed: F0 straight after 81 is no start byte\n",
        ),
        (
            "F0 81 55 81 58 81 D7 81 0F 00 01 0B 0F",
            "   7  81 0F  5A     checksum LSB, always stuffed: 0F straight after 81 is no stop byte\n",
        ),
    ] {
        let out = printed(&format!("packet read rehamove3 {bytes}"));
        assert!(out.contains(row), "{out}");
        assert!(out.ends_with("bytes used 13\nanswer 0: good packet\n"), "{out}");
    }
}

/// A packet that is longer than any good one is not shown to its end.
#[test]
fn long_ones_are_cut() {
    let out = printed(&format!("packet read rehamove3 F0 {}", "11".repeat(50_000)));
    assert!(out.lines().count() < 1_250, "{}", out.lines().count());
    assert!(out.starts_with("Packet, not finished: 50,001 bytes\n"));
    assert!(out.contains("\n  ..  48,802 bytes more\n"), "{}", &out[out.len() - 600..]);
}
