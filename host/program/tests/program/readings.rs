//! How much of the bytes is read.

use crate::run::{ends, printed};

#[test]
fn bytes_after_the_frame_are_not_used() {
    for (words, behind) in [("read C0 FF 00", "FF 00"), ("read C0E2214878", "E2 21 48 78")] {
        ends(
            words,
            &[
                "bytes used 1",
                &format!("bytes behind, not used: {behind}"),
                "answer 0: good frame, reply 81",
            ],
        );
    }
}

#[test]
fn the_number_of_channels_is_an_updates_length() {
    let eight = "read A8 000A00 000A00 000A00 000A00 000A00 000A00 000A00 000A58 --channels";
    ends(&format!("{eight} 8"), &["bytes used 25", "answer 0: good frame, reply 41"]);
    ends(
        &format!("{eight} 7"),
        &["bytes used 0", "bytes behind, not used: 00 0A 58", "answer 3: wrong check, reply 40"],
    );
    ends(
        &format!("{eight} 1"),
        &[
            "check 0 + 10 + 0 = 10, modulo 32 = 10; the frame says 8: wrong",
            "bytes used 0",
            "bytes behind, not used: 00 0A 00 00 0A 00 00 0A 00 00 0A 00 00 0A 00 00 0A 00 00 0A 58",
            "answer 3: wrong check, reply 40",
        ],
    );
    for count in 1..=8 {
        assert_eq!(printed(&format!("read C0 --channels {count}")), printed("read C0"));
    }
}

/// As many as take up the low bytes, but 1 to 8.
#[test]
fn the_bytes_tell_the_number_of_channels() {
    let frame = "read BB 01 48 28 22 2C 1E";
    let told = "Update for 2 listed channels, as its bytes tell: 7 bytes\n";
    let given = "Update for 2 listed channels: 7 bytes\n";
    let expected = printed(&format!("{frame} --channels 2"));
    assert_eq!(printed(frame), expected.replace(given, told));
    ends(&format!("{frame} C0"), &["bytes behind, not used: C0", "answer 0: good frame, reply 41"]);
    let low = "00 ".repeat(25);
    for (low, number) in [
        (0, "1 listed channel"),
        (1, "1 listed channel"),
        (4, "2 listed channels"),
        (25, "8 listed channels"),
    ]
    .map(|(count, number)| (&low[..3 * count], number))
    {
        let head = format!("Update for {number}, as its bytes tell: ");
        assert!(printed(&format!("read A0 {low}")).starts_with(&head), "{low}");
        assert!(printed(&format!("read A0 {low} C0 00")).starts_with(&head), "{low}");
    }
}
