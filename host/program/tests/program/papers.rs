//! Cases 1 to 9 of document 01 and the other worked examples of source 003, section 5.8, by the
//! bytes written there.

use crate::run::{bad, ends, prints};

/// The fields of case 1 and what comes of it.
const END_1: [&str; 9] = [
    "Ident              3: Single",
    "Check              2",
    "Channel_Number     2: channel 3",
    "Pulse_Width      200 µs",
    "Pulse_Current    120 mA",
    "",
    "check 2 + 200 + 120 = 322, modulo 32 = 2; the frame says 2: right",
    "bytes used 4",
    "answer 0: good frame, reply C1",
];

#[test]
fn case_1_single() {
    prints("write single --channel 3 --width 200 --current 120", &["E2 21 48 78"]);
    let bits = [
        "Single: 4 bytes",
        "",
        "byte  hex  76543210",
        "   1   E2  11100010  bit 7 set: a frame begins",
        "           .11.....  Ident bits 1,0",
        "           ...00010  Check bits 4 to 0",
        "   2   21  00100001  bit 7 clear: the frame goes on",
        "           .010....  Channel_Number bits 2 to 0",
        "           ....00..  don't care",
        "           ......01  Pulse_Width bits 8,7",
        "   3   48  01001000  bit 7 clear: the frame goes on",
        "           .1001000  Pulse_Width bits 6 to 0",
        "   4   78  01111000  bit 7 clear: the frame goes on",
        "           .1111000  Pulse_Current bits 6 to 0",
        "",
    ];
    prints("read E2 21 48 78", &[&bits[..], &END_1].concat());
}

#[test]
fn case_2_single() {
    prints("write single --channel 6 --width 221 --current 55", &["F9 51 5D 37"]);
    ends(
        "read F9 51 5D 37",
        &[
            "Ident              3: Single",
            "Check             25",
            "Channel_Number     5: channel 6",
            "Pulse_Width      221 µs",
            "Pulse_Current     55 mA",
            "",
            "check 5 + 221 + 55 = 281, modulo 32 = 25; the frame says 25: right",
            "bytes used 4",
            "answer 0: good frame, reply C1",
        ],
    );
}

#[test]
fn case_3_do_not_care_bits() {
    let bits = [
        "   2   2D  00101101  bit 7 clear: the frame goes on",
        "           .010....  Channel_Number bits 2 to 0",
        "           ....11..  don't care, set",
        "           ......01  Pulse_Width bits 8,7",
        "   3   48  01001000  bit 7 clear: the frame goes on",
        "           .1001000  Pulse_Width bits 6 to 0",
        "   4   78  01111000  bit 7 clear: the frame goes on",
        "           .1111000  Pulse_Current bits 6 to 0",
        "",
    ];
    ends("read E2 2D 48 78", &[&bits[..], &END_1].concat());
}

#[test]
fn case_4_wrong_check() {
    ends(
        "read E3 21 48 78",
        &[
            "Ident              3: Single",
            "Check              3",
            "Channel_Number     2: channel 3",
            "Pulse_Width      200 µs",
            "Pulse_Current    120 mA",
            "",
            "check 2 + 200 + 120 = 322, modulo 32 = 2; the frame says 3: wrong",
            "bytes used 0",
            "answer 3: wrong check, reply C0",
        ],
    );
}

#[test]
fn case_5_init() {
    prints(
        "write init --skips 0 --channels 1,3 --group-time 3 --main-time 18",
        &["88 01 20 00 30 12"],
    );
    prints(
        "read 88 01 20 00 30 12",
        &[
            "Init: 6 bytes",
            "",
            "byte  hex  76543210",
            "   1   88  10001000  bit 7 set: a frame begins",
            "           .00.....  Ident bits 1,0",
            "           ...010..  Check bits 2 to 0",
            "           ......00  N_Factor bits 2,1",
            "   2   01  00000001  bit 7 clear: the frame goes on",
            "           .0......  N_Factor bit 0",
            "           ..000001  Channel_Stim bits 7 to 2",
            "   3   20  00100000  bit 7 clear: the frame goes on",
            "           .01.....  Channel_Stim bits 1,0",
            "           ...00000  Channel_Lf bits 7 to 3",
            "   4   00  00000000  bit 7 clear: the frame goes on",
            "           .000....  Channel_Lf bits 2 to 0",
            "           ....00..  don't care",
            "           ......00  Group_Time bits 4,3",
            "   5   30  00110000  bit 7 clear: the frame goes on",
            "           .011....  Group_Time bits 2 to 0",
            "           ....0000  Main_Time bits 10 to 7",
            "   6   12  00010010  bit 7 clear: the frame goes on",
            "           .0010010  Main_Time bits 6 to 0",
            "",
            "Ident              0: Init",
            "Check              2",
            "N_Factor           0: no cycle skipped",
            "Channel_Stim       5: channels 1, 3",
            "Channel_Lf         0: no channel",
            "Group_Time         3: t2 = 3.0 ms",
            "Main_Time         18: t1 = 10.0 ms",
            "",
            "check 0 + 5 + 0 + 3 + 18 = 26, modulo 8 = 2; the frame says 2: right",
            "bytes used 6",
            "answer 0: good frame, reply 01",
        ],
    );
}

#[test]
fn case_6_update() {
    prints("write update 0:200:40 1:300:30", &["BB 01 48 28 22 2C 1E"]);
    prints(
        "read BB 01 48 28 22 2C 1E --channels 2",
        &[
            "Update for 2 listed channels: 7 bytes",
            "",
            "byte  hex  76543210",
            "   1   BB  10111011  bit 7 set: a frame begins",
            "           .01.....  Ident bits 1,0",
            "           ...11011  Check bits 4 to 0",
            "   2   01  00000001  bit 7 clear: the frame goes on",
            "           .00.....  entry 1: Mode bits 1,0",
            "           ...000..  entry 1: don't care",
            "           ......01  entry 1: Pulse_Width bits 8,7",
            "   3   48  01001000  bit 7 clear: the frame goes on",
            "           .1001000  entry 1: Pulse_Width bits 6 to 0",
            "   4   28  00101000  bit 7 clear: the frame goes on",
            "           .0101000  entry 1: Pulse_Current bits 6 to 0",
            "   5   22  00100010  bit 7 clear: the frame goes on",
            "           .01.....  entry 2: Mode bits 1,0",
            "           ...000..  entry 2: don't care",
            "           ......10  entry 2: Pulse_Width bits 8,7",
            "   6   2C  00101100  bit 7 clear: the frame goes on",
            "           .0101100  entry 2: Pulse_Width bits 6 to 0",
            "   7   1E  00011110  bit 7 clear: the frame goes on",
            "           .0011110  entry 2: Pulse_Current bits 6 to 0",
            "",
            "Ident              1: Update",
            "Check             27",
            "entry 1, the lowest listed channel",
            "  Mode             0: single pulse",
            "  Pulse_Width    200 µs",
            "  Pulse_Current   40 mA",
            "entry 2, the next listed channel",
            "  Mode             1: doublet",
            "  Pulse_Width    300 µs",
            "  Pulse_Current   30 mA",
            "",
            "check (0 + 200 + 40) + (1 + 300 + 30) = 571, modulo 32 = 27; the frame says 27: right",
            "bytes used 7",
            "answer 0: good frame, reply 41",
        ],
    );
}

#[test]
fn case_7_stop() {
    prints("write stop", &["C0"]);
    prints(
        "read C0",
        &[
            "Stop: 1 byte",
            "",
            "byte  hex  76543210",
            "   1   C0  11000000  bit 7 set: a frame begins",
            "           .10.....  Ident bits 1,0",
            "           ...00000  Check bits 4 to 0",
            "",
            "Ident              2: Stop",
            "Check              0",
            "",
            "check of no variables is 0, modulo 32 = 0; the frame says 0: right",
            "bytes used 1",
            "answer 0: good frame, reply 81",
        ],
    );
}

#[test]
fn case_8_main_time() {
    prints("write init --channels 1,3 --group-time 3 --main-time 2045", &["94 01 20 00 3F 7D"]);
    ends(
        "read 94 01 20 00 3F 7D",
        &[
            "Main_Time       2045: t1 = 1023.5 ms",
            "",
            "check 0 + 5 + 0 + 3 + 2045 = 2053, modulo 8 = 5; the frame says 5: right",
            "bytes used 6",
            "answer 0: good frame, reply 01",
        ],
    );
    let rule = "Main_Time is 4 to 2045 (t1 from 3.0 to 1023.5 ms)";
    bad(
        "write init --channels 1,3 --group-time 3 --main-time 2046",
        &format!("--main-time: 2046 is not good (answer 4: value not good): {rule}"),
    );
    ends(
        "read 98 01 20 00 3F 7E",
        &[
            &format!("Main_Time       2046: t1 = 1024.0 ms, not good: {rule}"),
            "",
            "check 0 + 5 + 0 + 3 + 2046 = 2054, modulo 8 = 6; the frame says 6: right",
            "bytes used 0",
            "answer 4: value not good, reply 00",
        ],
    );
}

#[test]
fn case_9_width() {
    let write = |width: u16| format!("write single --channel 3 --width {width} --current 120");
    let rule = "a width is 0 or 10 to 500 µs";
    for width in [9, 501] {
        let what = format!("{width} is not good (answer 4: value not good): {rule}");
        bad(&write(width), &format!("--width: {what}"));
    }
    prints(&write(10), &["E4 20 0A 78"]);
    prints(&write(500), &["EE 23 74 78"]);
    for (frame, width, sum, check) in [("E4 20 0A 78", 10, 132, 4), ("EE 23 74 78", 500, 622, 14)] {
        ends(
            &format!("read {frame}"),
            &[
                &format!("Pulse_Width    {width:5} µs"),
                "Pulse_Current    120 mA",
                "",
                &format!(
                    "check 2 + {width} + 120 = {sum}, modulo 32 = {check}; the frame says {check}: \
                     right"
                ),
                "bytes used 4",
                "answer 0: good frame, reply C1",
            ],
        );
    }
    for (frame, width, sum, check) in [("E3 20 09 78", 9, 131, 3), ("EF 23 75 78", 501, 623, 15)] {
        ends(
            &format!("read {frame}"),
            &[
                &format!("Pulse_Width    {width:5} µs, not good: {rule}"),
                "Pulse_Current    120 mA",
                "",
                &format!(
                    "check 2 + {width} + 120 = {sum}, modulo 32 = {check}; the frame says {check}: \
                     right"
                ),
                "bytes used 0",
                "answer 4: value not good, reply C0",
            ],
        );
    }
}

#[test]
fn initialisation_example_1() {
    prints(
        "write init --skips 1 --channels 1,2,5 --low-frequency 5 --group-time 7 --main-time 98",
        &["94 44 62 00 70 62"],
    );
    ends(
        "read 94 44 62 00 70 62",
        &[
            "N_Factor           1: 1 of 2 cycles skipped",
            "Channel_Stim      19: channels 1, 2, 5",
            "Channel_Lf        16: channel 5",
            "Group_Time         7: t2 = 5.0 ms",
            "Main_Time         98: t1 = 50.0 ms",
            "",
            "check 1 + 19 + 16 + 7 + 98 = 141, modulo 8 = 5; the frame says 5: right",
            "bytes used 6",
            "answer 0: good frame, reply 01",
        ],
    );
}

#[test]
fn initialisation_example_2() {
    prints(
        "write init --skips 2 --channels 2,3,6,8 --low-frequency 2,3 --group-time 9 --main-time 31",
        &["99 29 40 61 10 1F"],
    );
    ends(
        "read 99 29 40 61 10 1F",
        &[
            "N_Factor           2: 2 of 3 cycles skipped",
            "Channel_Stim     166: channels 2, 3, 6, 8",
            "Channel_Lf         6: channels 2, 3",
            "Group_Time         9: t2 = 6.0 ms",
            "Main_Time         31: t1 = 16.5 ms",
            "",
            "check 2 + 166 + 6 + 9 + 31 = 214, modulo 8 = 6; the frame says 6: right",
            "bytes used 6",
            "answer 0: good frame, reply 01",
        ],
    );
}

#[test]
fn update_example() {
    let frame = "BB 00 64 34 41 48 37 22 2C 48 23 10 5C";
    prints("write update 0:100:52 2:200:55 1:300:72 1:400:92", &[frame]);
    ends(
        &format!("read {frame} --channels 4"),
        &[
            "entry 1, the lowest listed channel",
            "  Mode             0: single pulse",
            "  Pulse_Width    100 µs",
            "  Pulse_Current   52 mA",
            "entry 2, the next listed channel",
            "  Mode             2: triplet",
            "  Pulse_Width    200 µs",
            "  Pulse_Current   55 mA",
            "entry 3, the next listed channel",
            "  Mode             1: doublet",
            "  Pulse_Width    300 µs",
            "  Pulse_Current   72 mA",
            "entry 4, the next listed channel",
            "  Mode             1: doublet",
            "  Pulse_Width    400 µs",
            "  Pulse_Current   92 mA",
            "",
            "check (0 + 100 + 52) + (2 + 200 + 55) + (1 + 300 + 72) + (1 + 400 + 92) = 1275, \
             modulo 32 = 27; the frame says 27: right",
            "bytes used 13",
            "answer 0: good frame, reply 41",
        ],
    );
}
