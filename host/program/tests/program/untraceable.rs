//! Words and files that are no readout.

use crate::folder::Folder;
use crate::random;
use crate::run::{self, bad};
use rand::Rng;
use yarrowbell::calls::ring_ready;
use yarrowbell::raw::{Part, Ring};

const ANSWER: &str = "(answer 14: used ring bytes do not split into whole known records)";

fn unknown(at: usize, kind: &str) -> String {
    format!(
        "byte {at} (counted from 0) is {kind}, and no record is of that kind: 01 is an answer, 02 \
         a pulse, 03 a trip {ANSWER}"
    )
}

fn cut(at: usize, kind: &str, length: usize, there: usize) -> String {
    format!(
        "the record at byte {at} (counted from 0) is cut short: one of kind {kind} has {length} \
         bytes, and {there} are there {ANSWER}"
    )
}

#[test]
fn bytes_that_are_no_records() {
    let words =
        |words: &str, what: &str| bad(&format!("trace {words}"), &format!("<HEX>...: {what}"));
    words("00", &unknown(0, "00"));
    words("030000000001 04 03", &unknown(6, "04"));
    words("01", &cut(0, "01", 7, 1));
    words("030000000001 026400000001C800", &cut(6, "02", 9, 8));
    words("0300000000", &cut(0, "03", 6, 5));
    let most = "a ring has at most 4096";
    words(&"03".repeat(4097), &format!("4097 bytes cannot be a readout: {most}"));
}

#[test]
fn files_of_no_records() {
    let most = "a ring has at most 4096";
    let folder = Folder::new("files_of_no_records")
        .with("unknown", "# two\n0300000000\n01\n 04 00")
        .with("cut", "030000000001\n03\n00")
        .with("long", "030000000001\n".repeat(683));
    folder.refuses("trace unknown", &format!("unknown:4: {}", unknown(6, "04")));
    folder.refuses("trace cut", &format!("cut:2: {}", cut(6, "03", 6, 2)));
    folder.refuses("trace long", &format!("long: 4098 bytes cannot be a readout: {most}"));
}

#[test]
fn files_that_are_not_hex() {
    let odd = "\"000\" has an odd number of hex digits, and a byte has two";
    let folder = Folder::new("files_that_are_not_hex")
        .with("letters", "03 00\n00 x")
        .with("prefix", "03 00\n00 0x")
        .with("commas", "03,00,\n# still\n,00")
        .with("odd", "03 00 # 0\n\n000");
    folder.refuses("trace letters", "letters:2: 'x' is not a hex digit");
    folder.refuses("trace prefix", "prefix:2: \"0x\" has no hex digits behind it");
    folder.refuses("trace commas", "commas:3: ',' has no byte before it");
    folder.refuses("trace odd", &format!("odd:3: {odd}"));
    folder.refuses("trace .", ".: Is a directory (os error 21)");
}

#[test]
fn words_that_are_neither_hex_nor_a_file() {
    let odd = "\"030\" has an odd number of hex digits, and a byte has two";
    for (words, word, why, no_file) in [
        ("XY", "XY", "'X' is not a hex digit", "no such file is there"),
        ("./030000000001", "./030000000001", "'.' is not a hex digit", "no such file is there"),
        ("030", "030", odd, "no such file is there"),
        ("030000000001 030", "030", odd, "a file stands alone"),
        ("/dev/null 03", "/dev/null", "'/' is not a hex digit", "a file stands alone"),
    ] {
        let what = format!("{word:?} is neither bytes in hex ({why}) nor a file ({no_file})");
        bad(&format!("trace {words}"), &format!("<HEX>...: {what}"));
    }
    let ran = run::words(&["trace", ""]);
    assert_eq!((ran.status, ran.out.as_str()), (2, ""));
    assert!(ran.err.starts_with("<HEX>...: \"\" is neither bytes in hex (no hex digits)"));
}

/// Bytes are a readout for the program exactly if they are for the library.
#[test]
fn any_bytes() {
    let mut readouts = 0;
    random::seeded(7_000..7_600, |rng| {
        let mut bytes: Vec<u8> = (0..rng.gen_range(1..32)).map(|_| rng.gen_range(0..5)).collect();
        let length = bytes.len();
        let words: String = bytes.iter().map(|byte| format!("{byte:02X}")).collect();
        bytes.resize(32, 0);
        let ring = Ring { capacity: 32, start: 0, used: length as u32 };
        let ready = ring_ready(&bytes, Part { offset: 0, size: 32 }, ring) == 0;
        let ran = run::words(&["trace", &words]);
        assert_eq!((ran.status, ran.out.is_empty()), if ready { (0, false) } else { (2, true) });
        readouts += u32::from(ready);
    });
    assert!(readouts > 20, "{readouts}");
}
