//! Sheets and lines that are refused with 4.

use crate::agree;
use crate::lines::sheet;
use independent::sheet::NotRead;

/// The bytes are refused for this line.
pub fn refused(sheet: &[u8], line: usize) {
    let told = agree::read(sheet);
    assert_eq!(told, Err(NotRead::BadLine(line)), "{}", String::from_utf8_lossy(sheet));
}

/// This line is bad wherever it stands.
pub fn bad(line: &str) {
    let good = "7,pulse,1,100,10,";
    refused(&sheet(&[line]), 2);
    refused(&sheet(&[line, good]), 2);
    refused(&sheet(&[good, line]), 3);
    refused(&sheet(&[good, good, line, line]), 4);
    refused(&[line.as_bytes(), b"\n"].concat(), 1);
}

/// Good lines, to be damaged.
pub const GOOD: [&str; 4] =
    ["0,answer,0,,,0", "4294967295,answer,3,,,10", "12345,pulse,1,100,10,", "70000,trip,,,,2"];

#[test]
fn good_ones() {
    assert!(agree::read(&sheet(&GOOD)).is_ok());
    for line in GOOD {
        assert!(agree::read(&sheet(&[line])).is_ok(), "{line}");
    }
}
