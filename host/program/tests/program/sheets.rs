//! `sheet` and `replay --sheet`: what is written, read back, and refused.

use crate::folder::Folder;
use crate::independently::{played, text, toml};
use crate::run;
use crate::seeded::seeded;
use independent::sheet::{read, write};
use rand::Rng;
use soak::sessions;

const HEADER: &str = "clock,kind,channel,width_us,current_ma,code";

const CASE_13: &str = "026400000001C80028 0273000000032C011E 0291000000032C011E";

/// "Case 13 of 01, whole."
#[test]
fn case_13() {
    let lines = [HEADER, "100,pulse,1,200,40,", "115,pulse,3,300,30,", "145,pulse,3,300,30,"];
    run::prints(&format!("sheet write {CASE_13}"), &lines);
    let sheet = lines.join("\n") + "\n";
    let folder = Folder::new("case_13_sheet").with("c.csv", &sheet);
    let hex = "02 64 00 00 00 01 C8 00 28 02 73 00 00 00 03 2C 01 1E 02 91 00 00 00 03 2C 01 1E\n";
    assert_eq!(folder.line("sheet read c.csv").out, hex);
    assert_eq!(folder.fed("sheet read -", &sheet).out, hex);
    assert_eq!(folder.fed("sheet write -", hex).out, sheet);
}

/// A line of each kind, and a sheet of no records.
#[test]
fn kinds() {
    let lines = [HEADER, "0,answer,0,,,0", "100,pulse,1,200,40,", "255,trip,,,,2"];
    run::prints("sheet write 01000000000000 026400000001C80028 03FF00000002", &lines);
    let folder = Folder::new("no_records").with("empty.csv", format!("{HEADER}\n"));
    let read = folder.line("sheet read empty.csv");
    assert_eq!((read.status, read.out.as_str()), (0, "\n"));
    assert_eq!(folder.fed("sheet write -", read.out).out, format!("{HEADER}\n"));
}

/// Into files, of text and of the bytes themselves, which are read again.
#[test]
fn files() {
    let folder = Folder::new("sheet_files");
    let wrote = folder.line(&format!("sheet write {CASE_13} --out c.csv"));
    assert_eq!((wrote.status, wrote.out.as_str(), wrote.err.as_str()), (0, "", ""));
    let read = folder.line("sheet read c.csv --binary c.readout");
    assert_eq!((read.status, read.out.as_str(), read.err.as_str()), (0, "", ""));
    let bytes = std::fs::read(folder.path().join("c.readout")).expect("it was written");
    assert_eq!((bytes.len(), bytes[0]), (27, 2));
    assert_eq!(folder.line("sheet write c.readout").out, folder.text("c.csv"));
    assert_eq!(folder.names(), ["c.csv", "c.readout"]);
    let kept = folder.text("c.csv");
    folder.refuses(
        "sheet read c.csv --binary c.csv",
        "c.csv: cannot be written: it is the sheet that is read",
    );
    folder.refuses(
        "sheet write c.readout --out c.readout",
        "c.readout: cannot be written: it is the readout that is read",
    );
    assert_eq!(folder.text("c.csv"), kept);
}

/// "A refusal exits 2 with FILE:LINE: and the answer."
#[test]
fn bad_sheets() {
    let folder = Folder::new("bad_sheets");
    let bad = |content: &str, place: &str| {
        folder.put("b.csv", content);
        folder.refuses("sheet read b.csv", &format!("b.csv:{place} (answer 4: value not good)"));
        folder.refuses(
            "sheet read b.csv --binary out",
            &format!("b.csv:{place} (answer 4: value not good)"),
        );
    };
    let good = "100,pulse,1,200,40,";
    bad("", &format!("1: the sheet is empty, and its first line is {HEADER}"));
    bad("clock,kind\n", &format!("1: the header is not {HEADER}"));
    bad(HEADER, "1: the line is not ended by a line feed");
    bad(&format!("{HEADER}\n{good}\n{good}"), "3: the line is not ended by a line feed");
    bad(
        &format!("{HEADER}\n{good}\r\n"),
        "2: a carriage return stands before the line feed, and a line ends with a line feed alone",
    );
    bad(
        &format!("{HEADER}\n{good}\n100,pulse,1,600,40,\n"),
        "3: width_us is 600, and a pulse has 10 to 500",
    );
    bad(
        &format!("{HEADER}\n{good}\n\n"),
        "3: the line has 1 field, and a record has six, with commas between them",
    );
    let message = "standard input:2: clock is \"+1\", and a number is digits alone \
                   (answer 4: value not good)";
    folder.refuses_fed("sheet read -", format!("{HEADER}\n+1,trip,,,,1\n"), message);
    let ran = folder.line("sheet read nowhere.csv");
    assert_eq!((ran.status, ran.out.as_str()), (2, ""));
    assert!(ran.err.starts_with("nowhere.csv: "), "{}", ran.err);
}

#[test]
fn bad_readouts() {
    let folder = Folder::new("bad_readouts").with("r", "01000000000000\n02640000\n");
    folder.refuses(
        "sheet write r",
        "r:2: the record at byte 7 (counted from 0) is cut short: one of kind 02 has 9 bytes, and 4 \
         are there (answer 14: used ring bytes do not split into whole known records)",
    );
    folder.refuses(
        "sheet write 03FF00000003",
        "<HEX>...: the record at byte 0 (counted from 0) is a trip whose code is 3, where 1 to 2 is \
         good (answer 4: value not good)",
    );
}

/// The sheet of a session's ring is that of its readout, and reads back.
#[test]
fn of_random_sessions() {
    let folder = Folder::new("of_random_sessions");
    let mut lines = 0;
    seeded(0..200, |rng| {
        let session = sessions::session(rng);
        folder.put("s", text(&session, rng.gen()));
        folder.put("p.toml", toml(&session.profile));
        let line = format!("replay s --profile p.toml --capacity {}", session.capacity);
        let ran = folder.line(&(line + " --sheet t.csv"));
        assert_eq!((ran.status, ran.err.as_str()), (0, ""));
        let (_, readout) = played(&session, session.profile);
        let mut sheet = vec![0; 44 + 4 * readout.len()];
        let size = write(&readout, &mut sheet).expect("a unit writes what is in range");
        assert_eq!(folder.text("t.csv").as_bytes(), &sheet[..size]);
        let mut back = vec![0; readout.len()];
        assert_eq!(read(&sheet[..size], &mut back), Ok(readout.len()));
        assert_eq!(back, readout);
        lines += folder.text("t.csv").lines().count() - 1;
    });
    assert!(lines > 2_000, "{lines} lines show little");
}

/// Of two units each has its own, and a third is refused.
#[test]
fn of_two_units() {
    let folder = Folder::new("of_two_units")
        .with("s", "0 88 01 20 00 30 12\n5 BB 01 48 28 22 2C 1E\n300 end\n")
        .with("lax.toml", "watchdog = 250\n")
        .with("strict.toml", "watchdog = 150\n");
    let line = "replay s --profile lax.toml --against strict.toml --sheet a.csv --sheet b.csv";
    assert_eq!(folder.line(line).status, 0);
    assert!(folder.text("a.csv").ends_with("\n255,trip,,,,2\n"), "{}", folder.text("a.csv"));
    assert!(folder.text("b.csv").ends_with("\n155,trip,,,,2\n"), "{}", folder.text("b.csv"));
    let first = folder.line("replay s --profile lax.toml --against strict.toml --sheet c.csv");
    assert_eq!((first.status, folder.text("c.csv")), (0, folder.text("a.csv")));
    folder.refuses(
        "replay s --sheet d.csv --sheet e.csv",
        "--sheet: 2 files for 1 unit, and each has one sheet",
    );
    folder.refuses(
        "replay s --sheet d.csv --plot d.csv",
        "d.csv: cannot be written: it is another output",
    );
}
