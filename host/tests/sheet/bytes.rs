//! Bytes that have no place in a sheet.

use crate::lines::{sheet, HEADER};
use crate::refused::{refused, GOOD};

/// Every byte but a digit's, a comma's and a line feed's, at each place of a line.
#[test]
fn every_other_byte() {
    for line in GOOD {
        for place in 0..=line.len() {
            for byte in (0..=255_u8).filter(|byte| !b"0123456789,\n".contains(byte)) {
                let (before, behind) = line.as_bytes().split_at(place);
                let with = [HEADER.as_bytes(), before, &[byte], behind, b"\n"].concat();
                refused(&with, 2);
            }
        }
    }
}

/// Bytes that are no text at all.
#[test]
fn no_text() {
    for bytes in
        [&b"\xFF"[..], b"\xFF\n", b"\xC3\x28\n", b"7,pulse,1,100,10,\xFF\n", b"\x80,trip\n"]
    {
        refused(bytes, 1);
        refused(&[HEADER.as_bytes(), bytes].concat(), 2);
        refused(&[&sheet(&GOOD)[..], bytes].concat(), 6);
    }
}
