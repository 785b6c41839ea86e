//! `replay`: sessions on one unit.

use crate::folder::Folder;

/// Document 01's case 12.
const CASE_12: &str = "\
# Init of channels 1 and 3, Update of their settings
0 88 01 20 00 30 12

5 BB014828 222C1E   # behind it nothing is sent
300 end
";

const STORY_12: &str = "     clock          ms  unit
         0         0.0  > 88 01 20 00 30 12  Init: channels 1, 3, t1 10.0 ms, t2 3.0 ms
                        answer 0: command carried out, reply 01
         5         0.5  > BB 01 48 28 22 2C 1E  Update: channel 1 single pulse 200 µs 40 mA;
                            channel 3 doublet 300 µs 30 mA
                        answer 0: command carried out, reply 41
       100        10.0  pulse on channel 1: 200 µs, 40 mA
       115        11.5  pulse on channel 3: 300 µs, 30 mA
       145        14.5  pulse on channel 3: 300 µs, 30 mA
       200        20.0  pulse on channel 1: 200 µs, 40 mA
       215        21.5  pulse on channel 3: 300 µs, 30 mA
       245        24.5  pulse on channel 3: 300 µs, 30 mA
       255        25.5  TRIP, cause: watchdog

unit: tripped at clock 300; commands 2, pulses 6, trips 1
";

fn case_12(name: &str) -> Folder {
    Folder::new(name).with("case12.session", CASE_12).with("lax.toml", "watchdog = 250\n")
}

fn prints(folder: &Folder, line: &str, text: &str) {
    let ran = folder.line(line);
    assert_eq!(ran.out, text, "{line}");
    assert_eq!((ran.status, ran.err.as_str()), (0, ""), "{line}");
}

#[test]
fn case_12_whole() {
    prints(&case_12("case_12_whole"), "replay case12.session --profile lax.toml", STORY_12);
}

#[test]
fn case_13_the_readout() {
    let folder = case_12("case_13");
    let last = |words: &str| {
        let ran = folder.line(&format!("replay case12.session --profile lax.toml {words}"));
        assert_eq!((ran.status, ran.err.as_str()), (0, ""), "{words}");
        ran.out.lines().last().expect("it prints something").to_owned()
    };
    let readout =
        "02 64 00 00 00 01 C8 00 28 02 73 00 00 00 03 2C 01 1E 02 91 00 00 00 03 2C 01 1E";
    assert_eq!(last("--capacity 32 --until 145 --readout"), readout);
    assert_eq!(last("--capacity 32 --until 145 --readout --calls"), format!("# {readout}"));
}

/// Update in idle; a Single of channel 1, 200 µs, 40 mA twice in one clock.
#[test]
fn cases_14_and_15_by_their_calls() {
    let folder = Folder::new("cases_14_and_15")
        .with("14.session", "0 BB 01 48 28\n")
        .with("15.session", "0 F0 01 48 28 F0 01 48 28\n");
    let head = "clock,call,byte,answer,reply,channel,width_us,current_ma,trip\n";
    let calls = "0,byte,BB,6,40,,,,\n0,byte,01,2,,,,,\n0,byte,48,2,,,,,\n0,byte,28,2,,,,,\n";
    prints(&folder, "replay 14.session --calls", &format!("{head}{calls}"));
    let open = "0,byte,F0,1,,,,,\n0,byte,01,1,,,,,\n0,byte,48,1,,,,,\n";
    let (taken, refused) = ("0,byte,28,0,C1,1,200,40,\n", "0,byte,28,8,C0,,,,\n");
    let calls = format!("{head}{open}{taken}{open}{refused}");
    prints(&folder, "replay 15.session --calls", &calls);
}

/// Its bytes are sent at the clock named, and none after it.
#[test]
fn until() {
    let folder = case_12("until");
    let long = folder.line("replay case12.session --profile lax.toml --until 400").out;
    assert_eq!(long, STORY_12.replace("clock 300", "clock 400"));
    let ended = |line: &str| {
        let out = folder.line(line).out;
        out.lines().last().expect("it prints how the unit ended").to_owned()
    };
    assert_eq!(
        ended("replay case12.session --until 4"),
        "unit: running at clock 4; commands 1, pulses 0, trips 0"
    );
    assert_eq!(
        ended("replay case12.session --until 5"),
        "unit: running at clock 5; commands 2, pulses 0, trips 0"
    );
    assert_eq!(
        ended("replay case12.session --until 0"),
        "unit: running at clock 0; commands 1, pulses 0, trips 0"
    );
}

/// A stray byte, an unfinished frame dropped, a wrong check, a list that is stopped, an Update that
/// comes too late, and a frame that the end leaves unfinished.
#[test]
fn what_is_no_command() {
    let folder = Folder::new("what_is_no_command")
        .with("odd.session", "3 7F\n4 E2 21 C1\n5 88 01 20 00 30 12 C0\n6 BB 88 01\n");
    let story = "     clock          ms  unit
         3         0.3  stray byte 7F, answer 2
         4         0.4  > C1  Stop
                        dropped unfinished: E2 21 (Single, 2 of 4 bytes)
                        answer 3: wrong check, reply 80
                          the check is 0, the frame says 1
         5         0.5  > 88 01 20 00 30 12  Init: channels 1, 3, t1 10.0 ms, t2 3.0 ms
                        answer 0: command carried out, reply 01
         5         0.5  > C0  Stop
                        answer 0: command carried out, reply 81
         6         0.6  > BB  Update
                        answer 6: Update, no list, reply 40
                          no list runs
         6         0.6  unfinished at the end: 88 01 (Init, 2 of 6 bytes)

unit: idle at clock 6; commands 4, pulses 0, trips 0
";
    prints(&folder, "replay odd.session", story);
}

/// As an editor on another system leaves them: a mark before the text, and returns before the line
/// feeds.
#[test]
fn files_of_other_systems() {
    let foreign = |text: &str| format!("\u{FEFF}{}", text.replace('\n', "\r\n"));
    let folder = Folder::new("files_of_other_systems")
        .with("case12.session", foreign(CASE_12))
        .with("lax.toml", foreign("watchdog = 250\n"));
    prints(&folder, "replay case12.session --profile lax.toml", STORY_12);
}

#[test]
fn nothing_sent() {
    let folder = Folder::new("nothing_sent").with("none.session", "# nothing\n").with("empty", "");
    for file in ["none.session", "empty"] {
        let story = "     clock          ms  unit

unit: idle at clock 0; commands 0, pulses 0, trips 0
";
        prints(&folder, &format!("replay {file}"), story);
    }
    let head = "clock,call,byte,answer,reply,channel,width_us,current_ma,trip\n#\n";
    prints(&folder, "replay empty --calls --readout", head);
}

/// A million ticks are nothing unusual.
#[test]
fn a_long_session() {
    let list = "0 88 01 20 00 30 12\n5 BB 01 48 28 22 2C 1E\n1000000 end\n";
    let folder = Folder::new("a_long_session").with("long.session", list);
    let out = folder.line("replay long.session --calls").out;
    assert_eq!(out.lines().count(), 1 + 13 + 1_000_000);
    let story = folder.line("replay long.session").out;
    let end = "unit: tripped at clock 1000000; commands 2, pulses 17998, trips 1";
    assert_eq!(story.lines().last(), Some(end));
}
