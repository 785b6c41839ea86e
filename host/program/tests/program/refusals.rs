//! Frames and values that the library refuses.

use crate::run::{bad, ends, printed, prints};

#[test]
fn an_unfinished_frame() {
    for bytes in ["80 00 00 00 00", "A0", "E2 21 48", "BB 01 48 28 22 2C 1E --channels 3"] {
        let refusal = ["bytes used 0", "answer 1: byte taken, frame unfinished, reply 00"];
        ends(&format!("read {bytes}"), &refusal);
    }
    ends(
        "read BB 01 48 28 22 2C",
        &[
            "Ident              1: Update",
            "Check             27",
            "entry 1, the lowest listed channel",
            "  Mode             0: single pulse",
            "  Pulse_Width    200 µs",
            "  Pulse_Current   40 mA",
            "entry 2, the next listed channel",
            "  Mode             1: doublet",
            "  Pulse_Width    300 µs",
            "",
            "not whole: 6 of 7 bytes are there, too few to work out the check",
            "bytes used 0",
            "answer 1: byte taken, frame unfinished, reply 00",
        ],
    );
}

#[test]
fn a_low_first_byte() {
    prints(
        "read 21 48 F8",
        &[
            "No frame",
            "",
            "byte  hex  76543210",
            "   1   21  00100001  bit 7 clear: no frame begins",
            "",
            "bytes used 0",
            "bytes behind, not used: 48 F8",
            "answer 2: low byte, no frame open, reply 00",
        ],
    );
    for bytes in ["00", "7F C0"] {
        ends(&format!("read {bytes}"), &["answer 2: low byte, no frame open, reply 00"]);
    }
}

#[test]
fn a_wrong_check() {
    ends(
        "read 89 01 20 00 30 12",
        &[
            "check 2 + 5 + 0 + 3 + 18 = 28, modulo 8 = 4; the frame says 2: wrong",
            "bytes used 0",
            "answer 3: wrong check, reply 00",
        ],
    );
    ends("read BA 01 48 28 22 2C 1E --channels 2", &["answer 3: wrong check, reply 40"]);
    ends(
        "read C1",
        &[
            "check of no variables is 0, modulo 32 = 0; the frame says 1: wrong",
            "bytes used 0",
            "answer 3: wrong check, reply 80",
        ],
    );
}

#[test]
fn a_value_read_that_is_not_good() {
    ends(
        "read 94 00 00 00 30 12",
        &[
            "Channel_Stim       0: no channel, not good: a list has at least one channel",
            "Channel_Lf         0: no channel",
            "Group_Time         3: t2 = 3.0 ms",
            "Main_Time         18: t1 = 10.0 ms",
            "",
            "check 0 + 0 + 0 + 3 + 18 = 21, modulo 8 = 5; the frame says 5: right",
            "bytes used 0",
            "answer 4: value not good, reply 00",
        ],
    );
    ends(
        "read A3 60 00 00",
        &[
            "  Mode             3, not good: Mode is 0, 1 or 2",
            "  Pulse_Width      0 µs",
            "  Pulse_Current    0 mA",
            "",
            "check 3 + 0 + 0 = 3, modulo 32 = 3; the frame says 3: right",
            "bytes used 0",
            "answer 4: value not good, reply 40",
        ],
    );
}

/// Of the frame nothing is decided then, whatever it is.
#[test]
fn a_number_of_channels_that_is_not_good() {
    for bytes in ["E2 21 48 78", "C1", "00", "BB 01 48 28 22 2C 1E"] {
        for count in [0, 9, 255] {
            let words = format!("read --channels {count} {bytes}");
            ends(&words, &["answer 4: value not good, reply 00"]);
            let fault = format!("--channels {count} is not good: a list has 1 to 8 channels\n");
            assert!(printed(&words).contains(&fault), "{words}");
        }
    }
}

#[test]
fn a_cut_frame() {
    let refusal = "answer 17: frame cut: a high byte before the frame's end, reply 00";
    prints(
        "read E2 21 C0 78 01",
        &[
            "Single: 4 bytes",
            "",
            "byte  hex  76543210",
            "   1   E2  11100010  bit 7 set: a frame begins",
            "           .11.....  Ident bits 1,0",
            "           ...00010  Check bits 4 to 0",
            "   2   21  00100001  bit 7 clear: the frame goes on",
            "           .010....  Channel_Number bits 2 to 0",
            "           ....00..  don't care",
            "           ......01  Pulse_Width bits 8,7",
            "   3   C0  11000000  bit 7 set: another frame begins, which cuts this one",
            "",
            "Ident              3: Single",
            "Check              2",
            "Channel_Number     2: channel 3",
            "Pulse_Width        -: bits 6 to 0 missing",
            "",
            "not whole: 2 of 4 bytes are there, too few to work out the check",
            "bytes used 0",
            "bytes behind, not used: 78 01",
            refusal,
        ],
    );
    for bytes in ["88 01 20 00 30 92", "BB 81 48 28"] {
        ends(&format!("read {bytes}"), &[refusal]);
    }
}

#[test]
fn a_value_to_write_that_is_not_good() {
    let channel = "a channel is 1 to 8 (Channel_Number 0 to 7)";
    let width = "a width is 0 or 10 to 500 µs";
    let current = "a current is 0 to 127 mA";
    let group = "Group_Time is 3 to 29 (t2 from 3.0 to 16.0 ms)";
    let main = "Main_Time is 4 to 2045 (t1 from 3.0 to 1023.5 ms)";
    let cases = [
        ("single --channel 9 --width 1 --current 128", "--channel: 9", channel),
        ("single --channel 255 --width 200 --current 120", "--channel: 255", channel),
        ("single --channel 1 --width 1 --current 128", "--width: 1", width),
        ("single --channel 1 --width 65535 --current 120", "--width: 65535", width),
        ("single --channel 1 --width 200 --current 128", "--current: 128", current),
        ("single --channel 1 --width 200 --current 255", "--current: 255", current),
        ("init --channels 1 --group-time 2 --main-time 3", "--group-time: 2", group),
        ("init --channels 1 --group-time 30 --main-time 4", "--group-time: 30", group),
        ("init --channels 1 --group-time 3 --main-time 3", "--main-time: 3", main),
        ("init --channels 1 --group-time 3 --main-time 65535", "--main-time: 65535", main),
        (
            "init --channels 1 --group-time 3 --main-time 4 --skips 8",
            "--skips: 8",
            "N_Factor is 0 to 7",
        ),
        ("update 3:200:40", "entry 1 (3:200:40): the mode 3", "Mode is 0, 1 or 2"),
        ("update 0:9:40 3:0:0", "entry 1 (0:9:40): the width 9", width),
        ("update 0:0:0 0:65535:40", "entry 2 (0:65535:40): the width 65535", width),
        ("update 4:0:9:40 8:3:0:0", "entry 1 (4:0:9:40): the width 9", width),
        ("update 0:200:40 0:200:255", "entry 2 (0:200:255): the current 255", current),
    ];
    for (words, named, rule) in cases {
        let message = format!("{named} is not good (answer 4: value not good): {rule}");
        bad(&format!("write {words}"), &message);
    }
}

#[test]
fn more_settings_than_channels() {
    for (setting, count) in [("0:200:40 ", 9), ("0:0:0 ", 300)] {
        bad(
            &format!("write update {}", setting.repeat(count)),
            &format!(
                "<[CHANNEL:]MODE:WIDTH:CURRENT>...: a number of {count} settings is not good (answer 4: \
                 value not good): a list has 1 to 8 channels"
            ),
        );
    }
}
