//! The tests in their order: "a readout that does not split is 14, tested first", then 4, then 16; of a
//! sheet its first bad line, "then comes 16 for a short output".

use crate::agree;
use crate::lines::{sheet, HEADER};
use independent::sheet::NotRead;

const GOOD: [u8; 6] = [3, 7, 0, 0, 0, 1];

/// A field out of range, of each kind.
const BAD: [&[u8]; 4] = [
    &[1, 7, 0, 0, 0, 4, 0],
    &[1, 7, 0, 0, 0, 0, 2],
    &[2, 7, 0, 0, 0, 1, 9, 0, 10],
    &[3, 7, 0, 0, 0, 3],
];

/// Bytes that do not split: a kind that is none, and a record cut.
const UNSPLIT: [&[u8]; 7] = [
    &[0],
    &[4, 7, 0, 0, 0, 1],
    &[255],
    &[1, 7, 0, 0, 0, 0],
    &[2, 7, 0, 0, 0, 1, 100, 0],
    &[3, 7, 0, 0, 0],
    &[2],
];

#[test]
fn readouts_that_do_not_split() {
    for unsplit in UNSPLIT {
        for room in [0, 44, 56, 1_000] {
            assert_eq!(agree::write_into(unsplit, room), Err(14));
            assert_eq!(agree::write_into(&[&GOOD, unsplit].concat(), room), Err(14));
            for bad in BAD {
                assert_eq!(agree::write_into(&[bad, unsplit].concat(), room), Err(14));
                assert_eq!(agree::write_into(&[bad, &GOOD, unsplit].concat(), room), Err(14));
            }
        }
    }
}

#[test]
fn fields_out_of_range() {
    for bad in BAD {
        for room in [0, 43, 44, 56, 1_000] {
            assert_eq!(agree::write_into(bad, room), Err(4));
            assert_eq!(agree::write_into(&[&GOOD, bad].concat(), room), Err(4));
            assert_eq!(agree::write_into(&[bad, &GOOD].concat(), room), Err(4));
            assert_eq!(agree::write_into(&[bad, bad].concat(), room), Err(4));
        }
    }
    assert_eq!(agree::write_into(&GOOD, 55), Err(16));
    assert!(agree::write_into(&GOOD, 56).is_ok());
}

/// Each place of the first bad line, with every choice of bad lines behind it.
#[test]
fn the_first_bad_line() {
    const LINES: usize = 7;
    for bad in 1..1_u32 << LINES {
        let line = |place: usize| if bad >> place & 1 == 1 { "7,trip,,,,3" } else { "7,trip,,,,2" };
        let sheet = sheet(&[0, 1, 2, 3, 4, 5, 6].map(line));
        let first = 2 + bad.trailing_zeros() as usize;
        for room in [0, 6 * LINES - 1, 6 * LINES, 1_000] {
            assert_eq!(agree::read_into(&sheet, room), Err(NotRead::BadLine(first)));
        }
        let unended = &sheet[..sheet.len() - 1];
        let told = agree::read(unended);
        assert_eq!(told, Err(NotRead::BadLine(first.min(1 + LINES))), "{bad:b}");
        // A bad header comes before all.
        assert_eq!(agree::read(&sheet[1..]), Err(NotRead::BadLine(1)));
        let two = [HEADER.as_bytes(), &sheet].concat();
        assert_eq!(agree::read(&two), Err(NotRead::BadLine(2)));
    }
}

#[test]
fn a_short_output_last() {
    let good = sheet(&["7,trip,,,,1"]);
    assert_eq!(agree::read_into(&good, 5), Err(NotRead::OutputTooShort));
    assert_eq!(agree::read_into(&good, 0), Err(NotRead::OutputTooShort));
    assert_eq!(agree::read_into(&good, 6).as_deref(), Ok(&GOOD[..]));
    for bad in [&good[..good.len() - 1], &good[1..], b""] {
        for room in [0, 5, 6] {
            assert!(matches!(agree::read_into(bad, room), Err(NotRead::BadLine(_))));
        }
    }
}
