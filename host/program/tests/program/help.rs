use crate::folder::Folder;
use crate::run;

/// Exit status 0 for help that was asked for, 2 for a line that says too little.
#[test]
fn help_is_given() {
    for (words, status) in [
        ("--help", 0),
        ("help", 0),
        ("", 2),
        ("write", 2),
        ("sheet", 2),
        ("packet", 2),
        ("packet write", 2),
    ] {
        let ran = run::line(words);
        assert_eq!(ran.status, status, "{words}");
        let (help, other) = if status == 0 { (ran.out, ran.err) } else { (ran.err, ran.out) };
        assert!(help.contains("Usage: yarrowbell"), "{words}");
        assert_eq!(other, "", "{words}");
    }
}

/// Every exit status stands in the help, in the words that the program's own comment has for it.
#[test]
fn exit_statuses() {
    let source = include_str!("../../src/main.rs").replace("\n//! ", " ");
    let (_, comment) = source.split_once("Exit status: ").expect("the comment tells them");
    let (comment, _) = comment.split_once(". ").expect("a sentence ends");
    let help = run::line("--help").out;
    let (_, help) = help.split_once("Exit status:\n").expect("the help tells them");
    let help: Vec<String> = help.lines().map(|line| line.trim().replacen("  ", " ", 1)).collect();
    assert_eq!(help, comment.split("; ").collect::<Vec<&str>>());
    let numbers: Vec<&str> = help.iter().filter_map(|line| line.split(' ').next()).collect();
    assert_eq!(numbers, ["0", "1", "2", "3"]);
}

/// Each subcommand's help has an example, which works. That of `bench` would build and measure.
#[test]
fn examples_work() {
    let folder = Folder::new("examples_work")
        .with("case12.session", "0 88 01 20 00 30 12\n300 end\n")
        .with("case13.csv", "clock,kind,channel,width_us,current_ma,code\n100,pulse,1,200,40,\n")
        .with("day1.script", "at 0 init --channels 1,3 --group-time 3 --main-time 18\n")
        .with("lax.toml", "watchdog = 250\n")
        .with("strict.toml", "watchdog = 150\n");
    for words in [
        "demo",
        "read",
        "write",
        "write single",
        "write init",
        "write update",
        "write stop",
        "trace",
        "sheet",
        "sheet write",
        "sheet read",
        "packet",
        "packet read",
        "packet write",
        "packet write rehastim2",
        "packet write rehastim2 init",
        "packet write rehastim2 init-ack",
        "packet write rehastim2 unknown-command",
        "packet write rehastim2 watchdog",
        "packet write rehastim2 get-stimulation-mode",
        "packet write rehastim2 get-stimulation-mode-ack",
        "packet write rehastim2 init-channel-list-mode",
        "packet write rehastim2 init-channel-list-mode-ack",
        "packet write rehamove3",
        "packet write rehamove3 ll-init",
        "packet write rehamove3 ll-init-ack",
        "packet write rehamove3 ll-channel-config",
        "packet write rehamove3 ll-channel-config-ack",
        "packet write rehamove3 ll-stop",
        "packet write rehamove3 ll-stop-ack",
        "replay",
        "session",
        "lesson",
        "lesson ring",
        "lesson fields",
        "lesson limits",
        "lesson charge",
        "soak",
        "bench",
    ] {
        let help = run::line(&format!("{words} --help"));
        assert_eq!((help.status, help.err.as_str()), (0, ""), "{words}");
        // A line that ends in \ goes on in the next, as in a shell.
        let out = help.out.replace("\\\n", "");
        let examples: Vec<&str> =
            out.lines().filter_map(|line| line.strip_prefix("  yarrowbell ")).collect();
        assert!(!examples.is_empty(), "{words}");
        for example in examples {
            assert!(example.starts_with(words), "{example}");
            if words != "bench" {
                assert_eq!(folder.line(example).status, 0, "{example}");
            }
        }
    }
}
