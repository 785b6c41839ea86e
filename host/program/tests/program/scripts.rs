//! `session`: scripts turned into session files.

use crate::folder::Folder;

fn prints(folder: &Folder, script: &str, session: &str) {
    let ran = folder.fed("session -", script);
    assert_eq!((ran.status, ran.err.as_str()), (0, ""), "{script}");
    assert_eq!(ran.out, session, "{script}");
}

/// Every command, every way to give a time, comments, and bytes as they are.
const SCRIPT: &str = "\
# a day at the bench
at 0 init --channels 1,3 --group-time 3 --main-time 18
at 5 update 1:0:200:40 3:1:300:30        # CHANNEL:MODE:WIDTH:CURRENT

at 12.5ms single --channel 3 --width 200 --current 120
at 12.5 ms update 0:200:40 1:300:30
at 30 ms stop
at 31ms bytes E2 21            # as they are
at 310 init --main-time 2045 --group-time 29 --skips 7 --low-frequency 5-8 --channels 1-8
at 310 end
";

const SESSION: &str = "\
0 88 01 20 00 30 12         # Init: channels 1, 3, t1 10.0 ms, t2 3.0 ms
5 BB 01 48 28 22 2C 1E      # Update: channel 1 single pulse 200 µs 40 mA; channel 3 doublet 300 µs 30 mA
125 E2 21 48 78             # Single: channel 3, 200 µs, 120 mA
125 BB 01 48 28 22 2C 1E    # Update: channel 1 single pulse 200 µs 40 mA; channel 3 doublet 300 µs 30 mA
300 C0                      # Stop
310 E2 21
310 83 7F 7E 03 5F 7D       # Init: channels 1, 2, 3, 4, 5, 6, 7, 8, t1 1023.5 ms, t2 16.0 ms, low frequency 5, 6, 7, 8 skipping 7 of 8
310 end
";

#[test]
fn a_script() {
    let folder = Folder::new("a_script").with("day1.script", SCRIPT).with("day1.session", SESSION);
    let ran = folder.line("session day1.script");
    assert_eq!((ran.status, ran.err.as_str()), (0, ""));
    assert_eq!(ran.out, SESSION);
    // And it is one that can be played.
    let story = folder.line("replay day1.session --calls");
    assert_eq!(story.status, 0);
    assert_eq!(story.out.lines().count(), 1 + 6 + 7 + 4 + 7 + 1 + 2 + 6 + 310);
}

#[test]
fn into_a_file() {
    let folder = Folder::new("into_a_file").with("day1.script", SCRIPT);
    let ran = folder.line("session day1.script --out day1.session");
    assert_eq!((ran.status, ran.out.as_str(), ran.err.as_str()), (0, "", ""));
    assert_eq!(folder.text("day1.session"), SESSION);
    folder.refuses(
        "session day1.script --out day1.script",
        "day1.script: cannot be written: it is the script that is read",
    );
    folder.refuses(
        "session --back day1.session --out day1.session",
        "day1.session: cannot be written: it is the session that is read",
    );
    assert_eq!([folder.text("day1.script"), folder.text("day1.session")], [SCRIPT, SESSION]);
}

/// The script in the help.
#[test]
fn the_example() {
    let folder = Folder::new("the_example");
    let help = folder.line("session --help").out;
    let lines: Vec<&str> = help.lines().filter(|line| line.starts_with("  at ")).collect();
    assert_eq!(lines.len(), 5, "{help}");
    let ran = folder.fed("session -", lines.join("\n"));
    assert_eq!((ran.status, ran.out.lines().count()), (0, 5), "{}", ran.err);
}

/// Each frame is the one that `write` prints.
#[test]
fn the_words_of_write() {
    let folder = Folder::new("the_words_of_write");
    for words in [
        "single --channel=8 --width=500 --current=127",
        "init --channels 8,1-2 --low-frequency 1 --skips 3 --group-time 9 --main-time 99",
        "stop",
    ] {
        let frame = folder.line(&format!("write {words}")).out;
        let session = folder.fed("session -", format!("at 7 {words}\n")).out;
        let sent = session.split(" # ").next().expect("there is a first part").trim_end();
        assert_eq!(sent, format!("7 {}", frame.trim_end()), "{words}");
    }
}

#[test]
fn times() {
    let folder = Folder::new("script_times");
    for (time, clock) in [
        ("0", "0"),
        ("4294967295", "4294967295"),
        ("0ms", "0"),
        ("0.0ms", "0"),
        ("0.1 ms", "1"),
        ("7ms", "70"),
        ("7 ms", "70"),
        ("7.5ms", "75"),
        ("429496729.5ms", "4294967295"),
        ("429496729 ms", "4294967290"),
    ] {
        prints(&folder, &format!("at {time} bytes C0"), &format!("{clock} C0\n"));
        prints(&folder, &format!("at {time} end"), &format!("{clock} end\n"));
    }
}

/// Nothing in it is nothing sent; a session without an end is over behind its last bytes.
#[test]
fn without_an_end() {
    let folder = Folder::new("without_an_end");
    for empty in ["", "\n\n", "# at 5 stop"] {
        prints(&folder, empty, "");
    }
    prints(&folder, "at 5 stop", "5 C0                        # Stop\n");
}

/// The list is that of the last Init before the Update, which may stand in bytes, and at several
/// clocks; one that the library does not read is none.
#[test]
fn the_list_of_the_last_init() {
    let folder = Folder::new("the_list_of_the_last_init");
    let taken = |script: &str| assert_eq!(folder.fed("session -", script).status, 0, "{script}");
    let (one, two) = ("at 9 update 2:0:200:40", "at 9 update 1:0:200:40 3:1:300:30");
    let init = "at 0 init --group-time 3 --main-time 18 --channels";
    taken(&format!("{init} 1,3\n{two}\n{init} 2\n{one}").replace("at 9", "at 0"));
    taken(&format!("at 0 bytes 88 01 20 00 30 12\n{two}"));
    taken(&format!("at 0 bytes 88 01 20 00\nat 3 bytes 30\nat 8 bytes 12 12\n{two}"));
    taken(&format!("at 0 bytes 21 E2 21 88 01 20 0C 30 12\n{two}"));
    taken(&format!("{init} 1,3\nat 1 stop\n{two}"));
    taken(&format!("{init} 1,3\nat 0 bytes 89 00 20 00 30 12 84 00 20 00\n{two}"));
    taken(&format!("{init} 1,3\nat 0 bytes 84 00\nat 1 stop\nat 2 bytes 20 00 30 12\n{two}"));
}

/// A long script is nothing unusual, either way.
#[test]
fn a_long_script() {
    let folder = Folder::new("a_long_script");
    let script: String = (0..200_000_u32)
        .map(|clock| match clock % 4 {
            0 => format!("at {clock} single --channel 3 --width 200 --current {}\n", clock % 128),
            1 => format!("at {clock} stop\n"),
            _ => format!("at {clock} bytes E2 21 {:02X}\n", clock % 128),
        })
        .collect();
    let session = folder.fed("session -", &script).out;
    assert_eq!(session.lines().count(), 200_000);
    let back = folder.fed("session --back -", &session).out;
    assert_eq!(back, script + "at 199999 end\n");
}
