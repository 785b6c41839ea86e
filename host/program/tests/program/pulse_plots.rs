//! `--plot` of `packet read rehamove3` and `packet write rehamove3 ll-channel-config`

use crate::folder::Folder;
use crate::pulses::{CHARGED, CONFIG, INIT, STOP};
use crate::run;
use crate::well_formed::is_well_formed;

const WRITE: &str = "packet write rehamove3 ll-channel-config --channel red --execute --packet 1 \
                     --point 250:20 --point 100:0";

/// How often these words are written in the picture.
fn count(picture: &str, words: &str) -> usize {
    picture.lines().filter(|line| *line == words).count()
}

/// What is written and what is read of it are one picture; what is printed is the same as without.
#[test]
fn a_pulse() {
    let folder = Folder::new("plot_a_pulse");
    for (line, file) in [
        (format!("{WRITE} --point 250:-20"), "write.svg"),
        (format!("packet read rehamove3 {CONFIG}"), "read.svg"),
        (format!("packet read rehamove3 {CONFIG} --json --check"), "json.svg"),
    ] {
        let ran = folder.line(&format!("{line} --plot {file}"));
        assert_eq!((ran.status, ran.err.as_str()), (0, ""), "{line}");
        assert_eq!(ran.out, run::line(&line).out, "{line}");
    }
    assert_eq!(folder.names(), ["json.svg", "read.svg", "write.svg"]);
    let picture = folder.text("write.svg");
    assert!(is_well_formed(&picture));
    for words in [
        "Ll_channel_config, channel red, Stimulation will be executed",
        "current in milliamps (mA)",
        "time in microseconds (µs)",
        "above zero: 10,000 half mA µs = 5,000 nC",
        "below zero: -10,000 half mA µs = -5,000 nC",
        "net charge",
    ] {
        assert_eq!(count(&picture, words), 1, "{words}");
    }
    assert!(folder.text("read.svg") == picture && folder.text("json.svg") == picture);
}

/// A pulse that is refused for its net charge is drawn, and says so; read, it is drawn too.
#[test]
fn a_net_charge() {
    let folder = Folder::new("plot_a_net_charge");
    let line = format!("{WRITE} --point 200:-20");
    let (plain, ran) = (run::line(&line), folder.line(&format!("{line} --plot refused.svg")));
    assert_eq!((ran.status, ran.out.as_str()), (2, ""));
    assert_eq!(ran.err, plain.err);
    assert_eq!(folder.line(&format!("packet read rehamove3 {CHARGED} --plot read.svg")).status, 0);
    let net =
        "2,000 half mA µs = 1,000 nC: a pulse with a net charge is not written (document 02, \
               request 13)";
    let title = "Ll_channel_config, channel red, Stimulation will be executed";
    for (file, title) in
        [("refused.svg", format!("refused with answer 4: {title}")), ("read.svg", title.to_owned())]
    {
        let picture = folder.text(file);
        assert!(is_well_formed(&picture));
        assert_eq!([count(&picture, net), count(&picture, &title)], [1, 1], "{file}");
    }
}

/// A pulse that is refused for a value is not drawn.
#[test]
fn a_value_that_is_not_good() {
    let folder = Folder::new("plot_a_value");
    let message = "--point 3: the current -130.5 mA is not good (answer 4: value not good, or a command \
                   that is not written): Current is coded 40 to 560, -130.0 to 130.0 mA (document 02, \
                   request 13)";
    folder.refuses(&format!("{WRITE} --point 250:-130.5 --plot p.svg"), message);
}

/// Where there is no pulse nothing is printed and no file is written.
#[test]
fn no_pulse() {
    let folder = Folder::new("plot_no_pulse").with("p.svg", "before");
    for (words, why) in [
        (format!("rehamove3 {INIT}"), "the packet is Ll_init"),
        (format!("rehamove3 {STOP}"), "the packet is Ll_stop"),
        (
            "rehamove3 F0 81 55 81 5B 81 98 81 99 1F FF 81 A5 0F".to_owned(),
            "the packet is of another command",
        ),
        ("rehamove3 F0 81".to_owned(), "answer 1: packet not finished"),
        (
            "rehamove3 F0 81 55 81 47 81 9F 81 09 04 02 80 81 5A A9 64 00 0F".to_owned(),
            "answer 4: wrong length, a stuffed pair that is never written, or value not good",
        ),
        ("rehastim2 F0 81 49 81 57 00 04 0F".to_owned(), "the packet is Watchdog"),
    ] {
        let message = format!("--plot: there is no pulse to draw: {why}");
        folder.refuses(&format!("packet read {words} --plot p.svg"), &message);
    }
    assert_eq!(folder.text("p.svg"), "before");
    let ran = folder.line(&format!("packet read rehamove3 {CONFIG} --all --plot p.svg"));
    assert_eq!((ran.status, ran.out.as_str()), (2, ""));
}

/// A picture of before is replaced whole; a file that the run reads is not, nor what cannot be.
#[test]
fn outputs() {
    let folder = Folder::new("plot_outputs").with("p.svg", "before").with("capture", CONFIG);
    for line in [format!("{WRITE} --point 250:-20"), "packet read rehamove3 capture".to_owned()] {
        folder.put("p.svg", "before");
        assert_eq!(folder.line(&format!("{line} --plot p.svg")).status, 0, "{line}");
        assert!(folder.text("p.svg").starts_with("<svg"), "{line}");
        let missing = "none/p.svg: cannot be written: No such file or directory (os error 2)";
        folder.refuses(&format!("{line} --plot none/p.svg"), missing);
        folder.refuses(&format!("{line} --plot ."), ".: cannot be written: this is a directory");
    }
    folder.refuses(
        "packet read rehamove3 capture --plot capture",
        "capture: cannot be written: it is the capture that is read",
    );
    assert_eq!(folder.text("capture"), CONFIG);
}
