//! `packet read`: the first packet, byte by byte.

use crate::run::{ends, printed, prints};

#[test]
fn a_watchdog() {
    prints(
        "packet read rehastim2 F0 81 49 81 57 00 04 0F",
        &[
            "Watchdog: 8 bytes",
            "",
            "  at  hex    plain",
            "   0  F0            start byte",
            "   1  81 49  1C     checksum, always stuffed",
            "   3  81 57  02     length, always stuffed",
            "   5  00     00     Packet number",
            "   6  04     04     Command",
            "   7  0F            stop byte",
            "",
            "Packet number                       0",
            "Command                             4: Watchdog",
            "",
            "unstuffed 00 04",
            "checksum of bytes 5 to 6 as they stand is 1C, stuffed 81 49; the packet has 1C, stuffed \
             81 49: right",
            "length of the same is 2, stuffed 81 57; the packet has 2, stuffed 81 57: right",
            "bytes used 8",
            "answer 0: good packet",
        ],
    );
}

/// Every value with its unit or its meaning, pairs as such, garbage before, other bytes behind.
#[test]
fn a_list_of_channels() {
    prints(
        "packet read rehastim2 41 0F F0 81 25 81 5E 02 1E 02 81 5A 08 81 D4 08 00 01 0F F0",
        &[
            "InitChannelListMode: 17 bytes",
            "",
            "  at  hex    plain",
            "   0  garbage: 41 0F",
            "   2  F0            start byte",
            "   3  81 25  70     checksum, always stuffed",
            "   5  81 5E  0B     length, always stuffed",
            "   7  02     02     Packet number",
            "   8  1E     1E     Command",
            "   9  02     02     Low frequency factor",
            "  10  81 5A  0F     Active channels, stuffed",
            "  12  08     08     Active low frequency channels",
            "  13  81 D4  81     Inter pulse interval coded, stuffed",
            "  15  08     08     Main stimulation interval coded MSB",
            "  16  00     00     Main stimulation interval coded LSB",
            "  17  01     01     Channel execution",
            "  18  0F            stop byte",
            "",
            "Packet number                       2",
            "Command                            30: InitChannelListMode",
            "Low frequency factor                2: skip 2 times",
            "Active channels                    15: channels 1, 2, 3, 4",
            "Active low frequency channels       8: channel 4",
            "Inter pulse interval coded        129: 66.0 ms",
            "Main stimulation interval coded  2048: 1025.0 ms, Continuous channel list mode",
            "Channel execution                   1: As fast as possible",
            "",
            "unstuffed 02 1E 02 0F 08 81 08 00 01",
            "checksum of bytes 7 to 17 as they stand is 70, stuffed 81 25; the packet has 70, \
             stuffed 81 25: right",
            "length of the same is 11, stuffed 81 5E; the packet has 11, stuffed 81 5E: right",
            "bytes used 19",
            "bytes behind, not used: F0",
            "answer 0: good packet",
        ],
    );
}

/// The fields of the other carried commands.
#[test]
fn fields() {
    for (bytes, lines) in [
        (
            "F0 81 F0 81 56 00 01 51 0F",
            &[
                "Command                             1: Init",
                "Version number                     81",
            ][..],
        ),
        (
            "F0 81 FB 81 56 01 02 FB 0F",
            &["Result                             -5: Incompatible protocol version"],
        ),
        (
            "F0 81 11 81 51 09 0B 00 02 0F",
            &[
                "Result                              0: No error",
                "Stimulation mode                    2: Stimulation started",
            ],
        ),
        ("F0 81 1E 81 56 09 0B F8 0F", &["Result                             -8: Busy error"]),
    ] {
        let out = printed(&format!("packet read rehastim2 {bytes}"));
        let fields = out.split("\n\n").nth(2).expect("the fields stand third");
        assert!(fields.ends_with(&lines.join("\n")), "{out}");
    }
}

/// Commands that are not carried are good packets, by their names in the paper, if they have one.
#[test]
fn other_commands() {
    let told = ", a command whose data is given back as bytes";
    ends(
        "packet read rehastim2 F0 81 64 81 53 07 24 02 00 C8 14 0F",
        &[
            "   5  07     07     Packet number",
            "   6  24     24     Command",
            "   7  02     02     data byte 1",
            "   8  00     00     data byte 2",
            "   9  C8     C8     data byte 3",
            "  10  14     14     data byte 4",
            "  11  0F            stop byte",
            "",
            "Packet number                       7",
            &format!("Command                            36: SinglePulse{told}"),
            "",
            "unstuffed 07 24 02 00 C8 14",
            "checksum of bytes 5 to 10 as they stand is 31, stuffed 81 64; the packet has 31, stuffed \
             81 64: right",
            "length of the same is 6, stuffed 81 53; the packet has 6, stuffed 81 53: right",
            "bytes used 12",
            "answer 0: good packet",
        ],
    );
    let out = printed("packet read rehastim2 F0 81 48 81 57 07 C8 0F");
    assert!(out.starts_with("Packet: 8 bytes\n"), "{out}");
    assert!(out.contains(&format!("Command                           200{told}\n")), "{out}");
}

/// A checksum of A5 is stuffed to 81 F0, one of 5A to 81 0F: neither is a start or a stop.
#[test]
fn marks_behind_the_stuffing_byte() {
    for (bytes, row) in [
        (
            "F0 81 F0 81 57 C4 04 0F",
            "   1  81 F0  A5     checksum, always stuffed: F0 straight after 81 is no start byte\n",
        ),
        (
            "F0 81 0F 81 57 DC 04 0F",
            "   1  81 0F  5A     checksum, always stuffed: 0F straight after 81 is no stop byte\n",
        ),
        ("F0 81 81 81 57 86 04 0F", "   1  81 81  D4     checksum, always stuffed\n"),
    ] {
        let out = printed(&format!("packet read rehastim2 {bytes}"));
        assert!(out.contains(row), "{out}");
        assert!(out.ends_with("bytes used 8\nanswer 0: good packet\n"), "{out}");
    }
    // Garbage that ends in 81 hides the start.
    let out = printed("packet read rehastim2 81 F0 81 49 81 57 00 04 0F");
    assert!(out.starts_with("No packet\n"), "{out}");
}

/// A packet that is longer than any good one, or garbage, is not shown to its end.
#[test]
fn long_ones_are_cut() {
    let out = printed(&format!("packet read rehastim2 F0 {}", "11".repeat(50_000)));
    assert!(out.lines().count() < 150, "{out}");
    assert!(out.starts_with("Packet, not finished: 50,001 bytes\n"));
    assert!(out.contains("\n  ..  49,871 bytes more\n"), "{out}");
    let out = printed(&format!("packet read rehastim2 F0 8155 8155 {} 0F", "11".repeat(50_000)));
    assert!(out.lines().count() < 150 && out.lines().all(|line| line.len() < 150), "{out}");
    let out = printed(&format!("packet read rehastim2 {}", "11".repeat(50_000)));
    let garbage = format!("   0  garbage: {}.. (50,000 bytes)\n", "11 ".repeat(16));
    assert!(out.contains(&garbage), "{out}");
}
