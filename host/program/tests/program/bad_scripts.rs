//! Scripts that are bad: exit status 2, nothing printed, and what is wrong, with the file and the line.

use crate::folder::Folder;

fn refuse(folder: &Folder, lines: &[(&str, &str)]) {
    for (text, message) in lines {
        folder.put("s", format!("# first\n{text}"));
        folder.refuses("session s", &format!("s:{message}"));
    }
}

#[test]
fn lines_of_a_script() {
    let line = "a line is at, a time and a command, as at 5 stop";
    let alone = "2: a time alone: a command follows it, or bytes, or the word end";
    let commands = "is no command: init, update, single, stop, bytes or end";
    refuse(
        &Folder::new("lines_of_a_script"),
        &[
            ("5 stop", &format!("2: \"5\" begins no line: {line}")),
            ("AT 5 stop", &format!("2: \"AT\" begins no line: {line}")),
            ("at 5", alone),
            ("at 5 ms", alone),
            ("at 5ms # stop", alone),
            ("at 5 halt", &format!("2: \"halt\" {commands}")),
            ("at 5 ms ms stop", &format!("2: \"ms\" {commands}")),
            ("at 5 help", &format!("2: \"help\" {commands}")),
            ("at 5 --help", &format!("2: \"--help\" {commands}")),
            ("at 5 Stop", &format!("2: \"Stop\" {commands}")),
            ("at 5 stop\nat 4 stop", "3: the clock goes back, from 5 to 4"),
            ("at 5 stop\nat 0.4 ms stop", "3: the clock goes back, from 5 to 4"),
            ("at 5 end now", "2: \"now\" behind the word end"),
            ("at 5 end\n\nat 5 stop", "4: a line after the end"),
            ("at 5 end\nat", "3: a line after the end"),
            ("at 5 bytes", "2: no hex digits"),
            ("at 5 bytes E", "2: \"E\" has an odd number of hex digits, and a byte has two"),
            ("at 5 bytes E2 x", "2: 'x' is not a hex digit"),
        ],
    );
}

#[test]
fn times() {
    let folder = Folder::new("bad_script_times");
    let what = "a clock from 0 to 4294967295, or milliseconds as 12.5ms from 0 to 429496729.5";
    for time in [
        "",
        "x",
        "-1",
        "+1",
        "1.5",
        "4294967296",
        "1.55ms",
        "1.ms",
        ".5ms",
        "ms",
        "-1ms",
        "+1 ms",
        "1.+ms",
        "1,5ms",
        "1e3ms",
        "429496729.6ms",
        "429496730 ms",
        "5s",
        "5MS",
        "1.5.5ms",
    ] {
        folder.put("s", format!("at {time}\n"));
        folder.refuses("session s", &format!("s:1: {time:?} is no time: {what}"));
    }
}

/// As `write` refuses them, with the line before it.
#[test]
fn values() {
    let current = "a current is 0 to 127 mA";
    let main = "Main_Time is 4 to 2045 (t1 from 3.0 to 1023.5 ms)";
    let not_good = "is not good (answer 4: value not good)";
    let left_out = "The following required arguments were not provided:";
    let found = "which wasn't expected, or isn't valid in this context";
    let update = "<[CHANNEL:]MODE:WIDTH:CURRENT>...";
    refuse(
        &Folder::new("bad_script_values"),
        &[
            (
                "at 5 single --channel 3 --width 200 --current 128",
                &format!("2: --current: 128 {not_good}: {current}"),
            ),
            (
                "at 5 single --channel 3 --width 200 --current -1",
                &format!(
                    "2: Invalid value '-1' for '--current <MILLIAMPS>': not a good whole number: \
                     {current}"
                ),
            ),
            (
                "at 5 init --channels 1 --group-time 3 --main-time 2046",
                &format!("2: --main-time: 2046 {not_good}: {main}"),
            ),
            (
                "at 5 init --channels 1-9 --group-time 3 --main-time 18",
                "2: Invalid value '1-9' for '--channels <LIST>': \"1-9\" is not a channel from 1 to \
                 8, nor a range of them; a list is spelt as 1,3 or 1-4,7",
            ),
            (
                "at 5 single --channel 3",
                &format!("2: {left_out} --width <MICROSECONDS> --current <MILLIAMPS>"),
            ),
            ("at 5 stop now", &format!("2: Found argument 'now' {found}")),
            ("at 5 stop --help", &format!("2: Found argument '--help' {found}")),
            ("at 5 update", &format!("2: {left_out} {update}")),
            (
                "at 5 update 3:200:40",
                &format!("2: entry 1 (3:200:40): the mode 3 {not_good}: Mode is 0, 1 or 2"),
            ),
            (
                "at 5 update 3:0:200:40 1:0:200:40",
                &format!("2: {update}: channel 1 behind channel 3, and the lowest stands first"),
            ),
        ],
    );
}

#[test]
fn updates_for_other_lists() {
    let init = "at 0 init --group-time 3 --main-time 18 --channels";
    let others = "no frame names its channels, and this one would be for the listed ones";
    let none = "2: an Update, and no Init before it lists channels";
    refuse(
        &Folder::new("updates_for_other_lists"),
        &[
            ("at 5 update 0:200:40", none),
            ("at 5 update 1:0:200:40", none),
            (
                &format!("{init} 1,3\nat 5 update 1:0:200:40"),
                &format!(
                    "3: an Update for channels 1, where the last Init before it lists 1, 3: {others}"
                ),
            ),
            (
                &format!("{init} 1,3\nat 5 update 1:0:200:40 2:0:200:40"),
                &format!(
                    "3: an Update for channels 1, 2, where the last Init before it lists 1, 3: \
                     {others}"
                ),
            ),
            (
                &format!("{init} 1,3\n{init} 2,3\nat 5 update 1:0:200:40 3:0:200:40"),
                &format!(
                    "4: an Update for channels 1, 3, where the last Init before it lists 2, 3: \
                     {others}"
                ),
            ),
            (
                &format!("{init} 1-4\nat 5 update 0:200:40 0:200:40"),
                "3: an Update of 2 settings, where the last Init before it lists 1, 2, 3, 4",
            ),
            // The wrong check of an Init in bytes, and an Init that is cut.
            ("at 0 bytes 89 01 20 00 30 12\nat 5 update 0:200:40 0:200:40", &none.replace('2', "3")),
            (
                "at 0 bytes 88 01 20\nat 1 stop\nat 2 bytes 00 30 12\nat 5 update 0:200:40 0:200:40",
                &none.replace('2', "5"),
            ),
        ],
    );
}

#[test]
fn sessions_to_turn_back() {
    let folder = Folder::new("sessions_to_turn_back")
        .with("s", "0 C0\n5 C")
        .with("latin1", b"0 C0 # \xB5s\n");
    let odd = "\"C\" has an odd number of hex digits, and a byte has two";
    folder.refuses("session --back s", &format!("s:2: {odd}"));
    folder.refuses("session --back latin1", "latin1:1: not UTF-8, and so no text");
    folder.refuses("session latin1", "latin1:1: not UTF-8, and so no text");
    folder.refuses("session gone", "gone: No such file or directory (os error 2)");
    folder.refuses("session --back gone", "gone: No such file or directory (os error 2)");
}
