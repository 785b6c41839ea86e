//! Ways to spell a command, and the least and greatest good values.

use crate::run::{self, printed, prints};

/// What is said of an Init with the least Group_Time and the least Main_Time.
pub const TOO_SHORT: &str =
    "every unit refuses this Init with answer 5: t1 30 is below 1·30 + 15 = 45 \
                         tenths of a ms: n·t2 + 15, n the largest Mode plus 1\n";

#[test]
fn single() {
    prints("write single --channel 1 --width 0 --current 0", &["E0 00 00 00"]);
    prints("write single --current 127 --width 500 --channel 8", &["FA 73 74 7F"]);
    prints("write single --channel=8 --width=500 --current=127", &["FA 73 74 7F"]);
}

#[test]
fn init() {
    let least = "80 00 20 00 30 04\n";
    for skips in ["", "--skips 0 "] {
        let line = format!("write init {skips}--channels 1 --group-time 3 --main-time 4");
        let ran = run::line(&line);
        assert_eq!((ran.status, ran.out.as_str(), ran.err.as_str()), (0, least, TOO_SHORT));
    }
    let greatest = "9F 7F 7F 73 5F 7D";
    prints(
        "write init --channels 1,2,3,4,5,6,7,8 --low-frequency 1,2,3,4,5,6,7,8 --skips 7 \
         --group-time 29 --main-time 2045",
        &[greatest],
    );
    prints(
        "write init --main-time 2045 --group-time 29 --skips 7 \
         --low-frequency 8,1,7,2,6,3,5,4 --channels 5,4,6,3,7,2,8,1",
        &[greatest],
    );
}

#[test]
fn ranges_of_channels() {
    let init = |channels: &str| format!("write init --group-time 29 --main-time 2045 {channels}");
    let greatest = "9F 7F 7F 73 5F 7D";
    for (list, same) in [
        ("1-8", "1,2,3,4,5,6,7,8"),
        ("1-4,7", "1,2,3,4,7"),
        ("7,1-4", "1,2,3,4,7"),
        ("1-2,4-5,8", "1,2,4,5,8"),
        ("3-3", "3"),
    ] {
        for name in ["--channels", "--channels 8 --low-frequency"] {
            let frame = printed(&init(&format!("{name} {list}")));
            assert_eq!(frame, printed(&init(&format!("{name} {same}"))), "{list}");
        }
    }
    prints(&init("--skips 7 --channels 1-8 --low-frequency 5-8,1-4"), &[greatest]);
}

#[test]
fn low_frequency_channels_need_not_be_listed() {
    prints(
        "write init --channels 1 --low-frequency 8 --group-time 3 --main-time 7",
        &["8C 00 30 00 30 07"],
    );
}

#[test]
fn update() {
    prints("write update 0:0:0", &["A0 00 00 00"]);
    prints("write update 2:500:127", &["B5 43 74 7F"]);
    prints("write update 8:2:500:127", &["B5 43 74 7F"]);
    prints("write update 1:0:200:40 3:1:300:30", &["BB 01 48 28 22 2C 1E"]);
    prints(
        "write update 0:10:0 0:10:0 0:10:0 0:10:0 0:10:0 0:10:0 0:10:0 0:10:88",
        &["A8 00 0A 00 00 0A 00 00 0A 00 00 0A 00 00 0A 00 00 0A 00 00 0A 00 00 0A 58"],
    );
}
