//! `replay --plot`

use crate::folder::Folder;

const LIST: &str = "0 88 01 20 00 30 12\n5 BB 01 48 28 22 2C 1E\n300 end\n";

fn folder(name: &str) -> Folder {
    Folder::new(name).with("s", LIST).with("p.toml", "watchdog = 250\n")
}

/// How often these words are written in the picture.
fn count(picture: &str, words: &str) -> usize {
    picture.lines().filter(|line| *line == words).count()
}

#[test]
fn one_unit() {
    let folder = folder("one_unit");
    assert_eq!(folder.line("replay s --profile p.toml --plot p.svg").status, 0);
    let picture = folder.text("p.svg");
    assert!(picture.starts_with("<svg") && picture.ends_with("</svg>\n"));
    let title = "s, profile p.toml";
    for words in [title, "channel 1", "channel 3", "Init 0", "Update 0", "watchdog"] {
        assert_eq!(count(&picture, words), 1, "{words}");
    }
    assert_eq!(folder.names(), ["p.svg", "p.toml", "s"]);
    assert_eq!(folder.line("replay s --profile p.toml --calls --plot q.svg").status, 0);
    assert!(
        folder.text("q.svg") == picture,
        "beside the calls is another picture than beside the story"
    );
}

#[test]
fn two_units() {
    let folder = folder("two_units");
    assert_eq!(folder.line("replay s --against p.toml --plot p.svg").status, 0);
    let picture = folder.text("p.svg");
    let (first, second) = ("the first: s, the loosest profile", "the second: s, profile p.toml");
    for (words, times) in [(first, 1), (second, 1), ("channel 1", 2), ("watchdog", 1)] {
        assert_eq!(count(&picture, words), times, "{words}");
    }
}

/// The lanes are those of the list, or of all channels; without a picture there are none.
#[test]
fn lanes() {
    let folder = folder("lanes").with("none", "3 7F\n9 end\n");
    let lanes = |line: &str| -> Vec<u8> {
        assert_eq!(folder.line(line).status, 0, "{line}");
        let picture = folder.text("p.svg");
        (1..=8).filter(|channel| count(&picture, &format!("channel {channel}")) > 0).collect()
    };
    assert_eq!(lanes("replay s --plot p.svg"), [1, 3]);
    assert_eq!(lanes("replay s --plot p.svg --all-lanes"), [1, 2, 3, 4, 5, 6, 7, 8]);
    assert_eq!(lanes("lesson ring --plot p.svg"), [1, 3]);
    assert_eq!(lanes("lesson ring --plot p.svg --all-lanes"), [1, 2, 3, 4, 5, 6, 7, 8]);
    assert!(lanes("replay none --plot p.svg").is_empty());
    assert_eq!(count(&folder.text("p.svg"), "No channel was listed, and no pulse released."), 1);
    for line in ["replay s --all-lanes", "lesson ring --all-lanes"] {
        let ran = folder.line(line);
        assert_eq!((ran.status, ran.out.as_str()), (2, ""), "{line}");
        assert!(ran.err.contains("--plot <OUT.svg>"), "{line}: {}", ran.err);
    }
}

/// An end of 10,000 ms is written in seconds.
#[test]
fn long_sessions_in_seconds() {
    let folder = folder("long_sessions_in_seconds");
    for (until, unit, last) in
        [("99999", "milliseconds (ms)", "9,000"), ("100000", "seconds (s)", "10")]
    {
        assert_eq!(folder.line(&format!("replay s --until {until} --plot p.svg")).status, 0);
        let picture = folder.text("p.svg");
        for words in [&format!("time in {unit}"), last] {
            assert_eq!(count(&picture, words), 1, "{until}: {words}");
        }
    }
}

/// Bad input leaves a picture of before as it was; a new one replaces it.
#[test]
fn whole_or_not_at_all() {
    let folder = folder("whole_or_not_at_all").with("p.svg", "before").with("bad", "5 C0\n4 C0\n");
    folder.refuses("replay bad --plot p.svg", "bad:2: the clock goes back, from 5 to 4");
    folder.refuses(
        "replay s --plot p.svg --profile none",
        "none: No such file or directory (os error 2)",
    );
    assert_eq!(folder.text("p.svg"), "before");
    assert_eq!(folder.line("replay s --plot p.svg").status, 0);
    assert!(folder.text("p.svg").starts_with("<svg"));
}
