//! What a host program is told where nothing is written or read.

use crate::lines::sheet as sheet_of_lines;
use yarrowbell::sheet::{self, BadLine, Column, Field, Kind, NotRead, NotWritten, HEADER};
use yarrowbell::{Answer, NotRecords};

const GOOD: [u8; 6] = [3, 7, 0, 0, 0, 1];

fn not_written(records: &[&[u8]]) -> NotWritten {
    sheet::of(&records.concat()).expect_err("something is wrong with it")
}

#[test]
fn readouts_that_do_not_split() {
    let kind = not_written(&[&GOOD, &[9]]);
    assert_eq!(kind, NotWritten::NotRecords(NotRecords::Kind { at: 6, kind: 9 }));
    assert_eq!((kind.answer(), kind.at()), (Answer::RingUnknown, Some(6)));
    let cut = not_written(&[&GOOD, &GOOD[..4]]);
    let expected = NotRecords::Cut { at: 6, kind: 3, length: 6, there: 4 };
    assert_eq!(cut, NotWritten::NotRecords(expected));
    assert_eq!(
        cut.to_string(),
        "the record at byte 6 (counted from 0) is cut short: one of kind 03 has 6 bytes, and 4 are \
         there (answer 14: used ring bytes do not split into whole known records)"
    );
}

/// The first field that is out of its range, whatever stands behind it.
#[test]
fn fields_out_of_range() {
    let cases: [(&[u8], Column, &str); 7] = [
        (&[1, 7, 0, 0, 0, 4, 0], Column::Channel, "an answer whose channel is 4, where 0 to 3 is"),
        (&[1, 7, 0, 0, 0, 0, 2], Column::Code, "an answer whose code is 2, where 0 or 3 to 10 is"),
        (
            &[2, 7, 0, 0, 0, 9, 9, 0, 0],
            Column::Channel,
            "a pulse whose channel is 9, where 1 to 8 is",
        ),
        (
            &[2, 7, 0, 0, 0, 8, 9, 0, 0],
            Column::WidthUs,
            "a pulse whose width_us is 9, where 10 to 500 is",
        ),
        (
            &[2, 7, 0, 0, 0, 8, 255, 255, 1],
            Column::WidthUs,
            "a pulse whose width_us is 65535, where 10 to 500 is",
        ),
        (
            &[2, 7, 0, 0, 0, 8, 10, 0, 0],
            Column::CurrentMa,
            "a pulse whose current_ma is 0, where 1 to 127 is",
        ),
        (&[3, 7, 0, 0, 0, 3], Column::Code, "a trip whose code is 3, where 1 to 2 is"),
    ];
    for (record, column, words) in cases {
        let why = not_written(&[&GOOD, record, &[3, 7, 0, 0, 0, 0]]);
        assert_eq!((why.answer(), why.at()), (Answer::NotGood, Some(6)));
        let told = format!(
            "the record at byte 6 (counted from 0) is {words} good (answer 4: value not good)"
        );
        assert_eq!(why.to_string(), told);
        let NotWritten::OutOfRange { field, .. } = why else { panic!("{why:?}") };
        assert_eq!(field.column, column);
    }
}

#[test]
fn outputs_too_short() {
    let short = sheet::write(&GOOD, &mut [0; 55]);
    assert_eq!(short, Err(NotWritten::OutputTooShort));
    assert_eq!(
        (NotWritten::OutputTooShort.answer(), NotWritten::OutputTooShort.at()),
        (Answer::OutputTooShort, None)
    );
    assert_eq!(NotWritten::OutputTooShort.to_string(), "answer 16: output too short for the sheet");
    let sheet = sheet::of(&GOOD).expect("it is good");
    assert_eq!(sheet::read(&sheet, &mut [0; 5]), Err(NotRead::OutputTooShort));
    assert_eq!(
        (NotRead::OutputTooShort.answer(), NotRead::OutputTooShort.line()),
        (Answer::OutputTooShort, None)
    );
    assert_eq!(NotRead::OutputTooShort.to_string(), "answer 16: output too short for the records");
}

#[test]
fn bad_lines() {
    let why = sheet::readout(&sheet_of_lines(&["7,trip,,,,1", "7,trip,,,,0", "8"]));
    let why = why.expect_err("no cause is 0");
    let field = Field { column: Column::Code, good: &[1..=2] };
    let fault =
        BadLine::OutOfRange { column: Column::Code, kind: Kind::Trip, text: "0".into(), field };
    assert_eq!(why, NotRead::BadLine { line: 3, why: fault });
    assert_eq!((why.answer(), why.line()), (Answer::NotGood, Some(3)));
    assert_eq!(
        why.to_string(),
        "line 3: code is 0, and a trip has 1 to 2 (answer 4: value not good)"
    );
    let empty = sheet::readout(b"").expect_err("it has no header");
    assert_eq!(empty, NotRead::BadLine { line: 1, why: BadLine::Empty });
}

/// As many bytes as the longest lines need are enough, and one less than a sheet has is not.
#[test]
fn rooms() {
    let longest = [2, 255, 255, 255, 255, 8, 244, 1, 127];
    let sheet = sheet::of(&longest).expect("it is good");
    assert_eq!(sheet, format!("{HEADER}4294967295,pulse,8,500,127,\n").as_bytes());
    assert!(sheet.len() <= sheet::room(longest.len()));
    let mut out = vec![0; sheet.len()];
    assert_eq!(sheet::write(&longest, &mut out), Ok(sheet.len()));
    assert_eq!(out, sheet);
    let mut records = [0; 9];
    assert_eq!(sheet::read(&sheet, &mut records), Ok(9));
    assert_eq!(records, longest);
}
