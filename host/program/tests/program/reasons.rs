//! Why commands are refused, in the words of the story.

use crate::folder::Folder;
use crate::run;

/// The session on a unit of this profile: the story up to its totals, without its head.
fn tells(session: &str, profile: &str, story: &str) {
    let name = format!("reasons for {}", session.replace('\n', ","));
    let folder = Folder::new(&name).with("s", session).with("p.toml", profile);
    let ran = folder.line("replay s --profile p.toml");
    assert_eq!((ran.status, ran.err.as_str()), (0, ""), "{session}");
    let (told, _) = ran.out.split_once("\n\n").expect("totals below an empty line");
    assert_eq!(told, format!("     clock          ms  unit\n{}", story.trim_end()));
}

/// Case 4 of document 01, a Stop with a check, and case 5 with another check.
#[test]
fn answer_3() {
    tells(
        "0 E3 21 48 78\n1 C1\n2 84 01 20 00 30 12\n",
        "",
        "         0         0.0  > E3 21 48 78  Single
                        answer 3: wrong check, reply C0
                          the check is 2, the frame says 3
         1         0.1  > C1  Stop
                        answer 3: wrong check, reply 80
                          the check is 0, the frame says 1
         2         0.2  > 84 01 20 00 30 12  Init
                        answer 3: wrong check, reply 00
                          the check is 2, the frame says 1
",
    );
}

/// Cases 8 and 9, and frames with several values that are not good. An Update's channels are those
/// of the list.
#[test]
fn answer_4() {
    tells(
        "0 98 01 20 00 3F 7E\n1 84 00 00 03 60 03\n2 E3 20 09 78\n\
         3 88 01 20 00 30 12\n4 A7 60 09 28 03 75 1E\n",
        "",
        "         0         0.0  > 98 01 20 00 3F 7E  Init
                        answer 4: value not good, reply 00
                          Main_Time 2046: Main_Time is 4 to 2045 (t1 from 3.0 to 1023.5 ms)
         1         0.1  > 84 00 00 03 60 03  Init
                        answer 4: value not good, reply 00
                          Channel_Stim 0: a list has at least one channel
                          Group_Time 30: Group_Time is 3 to 29 (t2 from 3.0 to 16.0 ms)
                          Main_Time 3: Main_Time is 4 to 2045 (t1 from 3.0 to 1023.5 ms)
         2         0.2  > E3 20 09 78  Single
                        answer 4: value not good, reply C0
                          channel 3: Pulse_Width 9: a width is 0 or 10 to 500 µs
         3         0.3  > 88 01 20 00 30 12  Init: channels 1, 3, t1 10.0 ms, t2 3.0 ms
                        answer 0: command carried out, reply 01
         4         0.4  > A7 60 09 28 03 75 1E  Update
                        answer 4: value not good, reply 40
                          channel 1: Mode 3: Mode is 0, 1 or 2
                          channel 1: Pulse_Width 9: a width is 0 or 10 to 500 µs
                          channel 3: Pulse_Width 501: a width is 0 or 10 to 500 µs
",
    );
}

/// Case 10, an Init that breaks both rules, case 11, and case 5 with a triplet.
#[test]
fn answer_5() {
    tells(
        "0 8C 3F 60 01 00 64\n1 80 05 60 00 50 04\n2 80 3F 60 01 10 18\n\
         3 A1 00 00 00 20 00 00 00 00 00 00 00 00 00 00 00 00 00 00 00 00 00 00 00 00\n\
         4 88 01 20 00 30 12\n5 BD 41 48 28 22 2C 1E\n",
        "",
        "         0         0.0  > 8C 3F 60 01 00 64  Init: channels 1, 2, 3, 4, 5, 6, 7, 8, t1 51.0 ms,
                            t2 5.5 ms
                        answer 5: timing rule broken, reply 00
                          t2 55 is below 15·4 = 60 tenths of a ms: 4 channels in each module
         1         0.1  > 80 05 60 00 50 04  Init: channels 1, 2, 3, 5, t1 3.0 ms, t2 4.0 ms
                        answer 5: timing rule broken, reply 00
                          t2 40 is below 15·3 = 45 tenths of a ms: 3 channels in module A
                          t1 30 is below 1·40 + 15 = 55 tenths of a ms: n·t2 + 15, n the largest
                            Mode plus 1
         2         0.2  > 80 3F 60 01 10 18  Init: channels 1, 2, 3, 4, 5, 6, 7, 8, t1 13.0 ms,
                            t2 6.0 ms
                        answer 0: command carried out, reply 01
         3         0.3  > A1 00 00 00 20 00 00 00 00 00 00 00 00 00 00 00 00 00 00 00 00 00 00 00 00
                            Update: channel 1 single pulse 0 µs 0 mA; channel 2 doublet 0 µs 0 mA;
                            channel 3 single pulse 0 µs 0 mA; channel 4 single pulse 0 µs 0 mA;
                            channel 5 single pulse 0 µs 0 mA; channel 6 single pulse 0 µs 0 mA;
                            channel 7 single pulse 0 µs 0 mA; channel 8 single pulse 0 µs 0 mA
                        answer 5: timing rule broken, reply 40
                          t1 130 is below 2·60 + 15 = 135 tenths of a ms: n·t2 + 15, n the largest
                            Mode plus 1
         4         0.4  > 88 01 20 00 30 12  Init: channels 1, 3, t1 10.0 ms, t2 3.0 ms
                        answer 0: command carried out, reply 01
         5         0.5  > BD 41 48 28 22 2C 1E  Update: channel 1 triplet 200 µs 40 mA;
                            channel 3 doublet 300 µs 30 mA
                        answer 5: timing rule broken, reply 40
                          t1 100 is below 3·30 + 15 = 105 tenths of a ms: n·t2 + 15, n the largest
                            Mode plus 1
",
    );
}

/// Case 14, and a Single during the list of case 5, and during one of a single channel.
#[test]
fn answers_6_and_7() {
    tells(
        "0 BB 01\n1 88 01 20 00 30 12 F0 01 48 28\n2 94 20 00 00 30 12 F0 01 48 28\n",
        "",
        "         0         0.0  > BB  Update
                        answer 6: Update, no list, reply 40
                          no list runs
         0         0.0  stray byte 01, answer 2
         1         0.1  > 88 01 20 00 30 12  Init: channels 1, 3, t1 10.0 ms, t2 3.0 ms
                        answer 0: command carried out, reply 01
         1         0.1  > F0 01 48 28  Single: channel 1, 200 µs, 40 mA
                        answer 7: Single while a list runs, reply C0
                          a list runs, of channels 1, 3
         2         0.2  > 94 20 00 00 30 12  Init: channel 8, t1 10.0 ms, t2 3.0 ms
                        answer 0: command carried out, reply 01
         2         0.2  > F0 01 48 28  Single: channel 1, 200 µs, 40 mA
                        answer 7: Single while a list runs, reply C0
                          a list runs, of channel 8
",
    );
}

/// Case 15, and the end of the hold; then the other module.
#[test]
fn answer_8() {
    tells(
        "0 F0 01 48 28 F0 01 48 28\n14 F0 01 48 28\n15 F0 01 48 28 FA 73 74 7F\n20 FA 73 74 7F\n",
        "",
        "         0         0.0  > F0 01 48 28  Single: channel 1, 200 µs, 40 mA
                        answer 0: command carried out, reply C1
                        pulse on channel 1: 200 µs, 40 mA
         0         0.0  > F0 01 48 28  Single: channel 1, 200 µs, 40 mA
                        answer 8: Single during a hold, reply C0
                          module A (channels 1 to 4) is in a hold for 15 more ticks (1.5 ms)
        14         1.4  > F0 01 48 28  Single: channel 1, 200 µs, 40 mA
                        answer 8: Single during a hold, reply C0
                          module A (channels 1 to 4) is in a hold for 1 more tick (0.1 ms)
        15         1.5  > F0 01 48 28  Single: channel 1, 200 µs, 40 mA
                        answer 0: command carried out, reply C1
                        pulse on channel 1: 200 µs, 40 mA
        15         1.5  > FA 73 74 7F  Single: channel 8, 500 µs, 127 mA
                        answer 0: command carried out, reply C1
                        pulse on channel 8: 500 µs, 127 mA
        20         2.0  > FA 73 74 7F  Single: channel 8, 500 µs, 127 mA
                        answer 8: Single during a hold, reply C0
                          module B (channels 5 to 8) is in a hold for 10 more ticks (1.0 ms)
",
    );
}

/// All limits of a pulse; that of t1; and those of two channels of an Update.
#[test]
fn answer_9() {
    let strict = "\
currents = [127, 127, 25, 127, 127, 127, 127, 127]
widths = [199, 500, 100, 500, 500, 500, 500, 500]
charge = 20000
shortest_t1 = 100
";
    tells(
        "0 E2 21 48 78\n1 84 01 20 00 30 11\n2 88 01 20 00 30 12\n3 BB 01 48 28 22 2C 1E\n",
        strict,
        "         0         0.0  > E2 21 48 78  Single: channel 3, 200 µs, 120 mA
                        answer 9: over a limit, reply C0
                          channel 3: 120 mA is above its limit of 25 mA
                          channel 3: 200 µs is above its limit of 100 µs
                          channel 3: 120 mA · 200 µs = 24000 nC is above the limit of 20000 nC
                        TRIP, cause: limit
         1         0.1  > 84 01 20 00 30 11  Init: channels 1, 3, t1 9.5 ms, t2 3.0 ms
                        answer 9: over a limit, reply 00
                          t1 95 (9.5 ms) is below the shortest t1 100 (10.0 ms)
                        TRIP, cause: limit
         2         0.2  > 88 01 20 00 30 12  Init: channels 1, 3, t1 10.0 ms, t2 3.0 ms
                        answer 0: command carried out, reply 01
         3         0.3  > BB 01 48 28 22 2C 1E  Update: channel 1 single pulse 200 µs 40 mA;
                            channel 3 doublet 300 µs 30 mA
                        answer 9: over a limit, reply 40
                          channel 1: 200 µs is above its limit of 199 µs
                          channel 3: 30 mA is above its limit of 25 mA
                          channel 3: 300 µs is above its limit of 100 µs
                        TRIP, cause: limit
",
    );
}

/// An Update that the watchdog's trip left open, a Single, and an Update without a list; then the
/// trip of a limit.
#[test]
fn answer_10() {
    tells(
        "0 88 01 20 00 30 12\n5 BB 01 48 28 22\n300 2C 1E F0 01 48 28 BB\n\
         301 C0\n316 E2 21 48 78 F0 01 48 28\n",
        "watchdog = 250\ncurrents = [127, 127, 119, 127, 127, 127, 127, 127]\n",
        "         0         0.0  > 88 01 20 00 30 12  Init: channels 1, 3, t1 10.0 ms, t2 3.0 ms
                        answer 0: command carried out, reply 01
       250        25.0  TRIP, cause: watchdog
       300        30.0  > BB 01 48 28 22 2C 1E  Update: channel 1 single pulse 200 µs 40 mA;
                            channel 3 doublet 300 µs 30 mA
                        answer 10: Update or Single while tripped, reply 40
                          the box is tripped since clock 250 (25.0 ms), cause: watchdog, and only
                            Init and Stop lead out
       300        30.0  > F0 01 48 28  Single: channel 1, 200 µs, 40 mA
                        answer 10: Update or Single while tripped, reply C0
                          the box is tripped since clock 250 (25.0 ms), cause: watchdog, and only
                            Init and Stop lead out
       300        30.0  > BB  Update
                        answer 10: Update or Single while tripped, reply 40
                          the box is tripped since clock 250 (25.0 ms), cause: watchdog, and only
                            Init and Stop lead out
       301        30.1  > C0  Stop
                        answer 0: command carried out, reply 81
       316        31.6  > E2 21 48 78  Single: channel 3, 200 µs, 120 mA
                        answer 9: over a limit, reply C0
                          channel 3: 120 mA is above its limit of 119 mA
                        TRIP, cause: limit
       316        31.6  > F0 01 48 28  Single: channel 1, 200 µs, 40 mA
                        answer 10: Update or Single while tripped, reply C0
                          the box is tripped since clock 316 (31.6 ms), cause: limit, and only Init
                            and Stop lead out
",
    );
}

/// The tests stand in document 01's order: of a frame with several faults the first is told. While
/// tripped a wrong check is told, a bad width is not.
#[test]
fn the_first_fault_is_told() {
    tells(
        "0 88 01 20 00 30 12\n10 E3 20 09 78 E4 20 09 78\n11 C1\n",
        "watchdog = 5\n",
        "         0         0.0  > 88 01 20 00 30 12  Init: channels 1, 3, t1 10.0 ms, t2 3.0 ms
                        answer 0: command carried out, reply 01
         5         0.5  TRIP, cause: watchdog
        10         1.0  > E3 20 09 78  Single
                        answer 10: Update or Single while tripped, reply C0
                          the box is tripped since clock 5 (0.5 ms), cause: watchdog, and only Init
                            and Stop lead out
        10         1.0  > E4 20 09 78  Single
                        answer 3: wrong check, reply C0
                          the check is 3, the frame says 4
        11         1.1  > C1  Stop
                        answer 3: wrong check, reply 80
                          the check is 0, the frame says 1
",
    );
}

/// Two units, each with its reasons in its column. The mark is for what they do: not for reasons
/// alone, as at clock 26, and not for a Stop that both take, if one of them dropped a frame for it.
#[test]
fn two_units() {
    let session = "\
0 88 01 20 00 30 12
5 BB 01 48 28 22 2C 1E
10 F0 01 48 28
26 F0 01 48 28
27 88 01 20 00 30 12 BB 01 48 28 22 2C 1E
28 BB 01
29 C0
30 F0 01
";
    let strict = "currents = [127, 127, 25, 127, 127, 127, 127, 127]\ncharge = 8999\n";
    let folder = Folder::new("reasons of two units")
        .with("s", session)
        .with("p.toml", "watchdog = 15\n")
        .with("q.toml", strict);
    let ran = folder.line("replay s --profile p.toml --against q.toml");
    let (told, _) = ran.out.split_once("\n\n").expect("totals below an empty line");
    let story = "     clock          ms  the first                                   the second
         0         0.0  > 88 01 20 00 30 12  Init: channels 1, 3, t1 10.0 ms, t2 3.0 ms
                        answer 0: command carried out, reply 01     answer 0: command carried out, reply 01
         5         0.5  > BB 01 48 28 22 2C 1E  Update: channel 1 single pulse 200 µs 40 mA;
                            channel 3 doublet 300 µs 30 mA
                        answer 0: command carried out, reply 41     answer 9: over a limit, reply 40            differ
                                                                      channel 3: 30 mA is above its limit of
                                                                        25 mA
                                                                      channel 3: 30 mA · 300 µs = 9000 nC is
                                                                        above the limit of 8999 nC
                                                                    TRIP, cause: limit                          differ
        10         1.0  > F0 01 48 28  Single: channel 1, 200 µs, 40 mA
                        answer 7: Single while a list runs,         answer 10: Update or Single while tripped,  differ
                            reply C0                                    reply C0
                          a list runs, of channels 1, 3               the box is tripped since clock 5
                                                                        (0.5 ms), cause: limit, and only Init
                                                                        and Stop lead out
        25         2.5  TRIP, cause: watchdog                                                                   differ
        26         2.6  > F0 01 48 28  Single: channel 1, 200 µs, 40 mA
                        answer 10: Update or Single while tripped,  answer 10: Update or Single while tripped,
                            reply C0                                    reply C0
                          the box is tripped since clock 25           the box is tripped since clock 5
                            (2.5 ms), cause: watchdog, and only         (0.5 ms), cause: limit, and only Init
                            Init and Stop lead out                      and Stop lead out
        27         2.7  > 88 01 20 00 30 12  Init: channels 1, 3, t1 10.0 ms, t2 3.0 ms
                        answer 0: command carried out, reply 01     answer 0: command carried out, reply 01
        27         2.7  > BB 01 48 28 22 2C 1E  Update: channel 1 single pulse 200 µs 40 mA;
                            channel 3 doublet 300 µs 30 mA
                        answer 0: command carried out, reply 41     answer 9: over a limit, reply 40            differ
                                                                      channel 3: 30 mA is above its limit of
                                                                        25 mA
                                                                      channel 3: 30 mA · 300 µs = 9000 nC is
                                                                        above the limit of 8999 nC
                                                                    TRIP, cause: limit                          differ
        28         2.8  > BB  Update
                                                                    answer 10: Update or Single while tripped,  differ
                                                                        reply 40
                                                                      the box is tripped since clock 27
                                                                        (2.7 ms), cause: limit, and only Init
                                                                        and Stop lead out
        28         2.8                                              stray byte 01, answer 2                     differ
        29         2.9  > C0  Stop
                        dropped unfinished: BB 01 (Update, 2                                                    differ
                            bytes)
                        answer 0: command carried out, reply 81     answer 0: command carried out, reply 81
        30         3.0  unfinished at the end: F0 01 (Single, 2 of  unfinished at the end: F0 01 (Single, 2 of
                            4 bytes)                                    4 bytes)
";
    assert_eq!(told, story.trim_end());
}

/// An Init that breaks both timing rules is read and written, and what every unit makes of it is said.
#[test]
fn an_init_that_every_unit_refuses() {
    let rules = [
        "every unit refuses this Init with answer 5: t2 55 is below 15·4 = 60 tenths of a ms: \
         4 channels in each module",
        "every unit refuses this Init with answer 5: t1 30 is below 1·55 + 15 = 70 tenths of a ms: \
         n·t2 + 15, n the largest Mode plus 1",
    ];
    let ends = ["bytes used 6", "answer 0: good frame, reply 01", rules[0], rules[1]];
    run::ends("read 8C 3F 60 01 00 04", &ends);
    let ran = run::line("write init --channels 1,2,3,4,5,6,7,8 --group-time 8 --main-time 4");
    assert_eq!((ran.status, ran.out.as_str()), (0, "8C 3F 60 01 00 04\n"));
    assert_eq!(ran.err, format!("{}\n{}\n", rules[0], rules[1]));
}
