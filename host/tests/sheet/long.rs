//! Readouts of more records than any ring has. There is no limit on their length.

use crate::agree;
use crate::random_sheets;
use crate::seeded::seeded;
use independent::sheet::{records, NotRead};
use rand::Rng;

/// Lengths of which some have records just at the 4,096 bytes of the largest ring.
#[test]
fn both_ways() {
    seeded(0..120, |rng| {
        let number = [450, 455, 456, 540, 600, 1_200, 3_000][rng.gen_range(0..7)];
        let readout = random_sheets::readout(rng, number);
        let sheet = agree::write(&readout).expect("every field is in its range");
        assert_eq!(agree::read(&sheet).as_ref(), Ok(&readout));
        for short in 1..=10 {
            let room = readout.len() - short;
            assert_eq!(agree::read_into(&sheet, room), Err(NotRead::OutputTooShort));
            assert_eq!(agree::write_into(&readout, sheet.len() - short), Err(16));
        }
        for more in 0..=10 {
            assert_eq!(agree::read_into(&sheet, readout.len() + more).as_ref(), Ok(&readout));
        }
    });
}

/// A bad line among many, and one record less behind it.
#[test]
fn bad_lines() {
    seeded(1_000..1_060, |rng| {
        let number = rng.gen_range(500..1_500);
        let sheet = random_sheets::sheet(rng, number);
        let ends = || (1..).zip(&sheet).filter(|(_, byte)| **byte == b'\n').map(|(end, _)| end);
        let lines: Vec<usize> = ends().collect();
        let bad = rng.gen_range(2..=lines.len());
        let mut damaged = sheet.clone();
        damaged[lines[bad - 1] - 2] = b'x';
        assert_eq!(agree::read(&damaged), Err(NotRead::BadLine(bad)));
        assert_eq!(agree::read_into(&damaged, 0), Err(NotRead::BadLine(bad)));
        let unended = &sheet[..sheet.len() - 1];
        assert_eq!(agree::read(unended), Err(NotRead::BadLine(lines.len())));
        let cut = &sheet[..lines[bad - 1]];
        let kept = agree::read(cut).expect("whole lines are good");
        assert_eq!(records(&kept).map(|records| records.len()), Some(bad - 1));
    });
}

/// A record out of range, or a kind unknown, behind many good ones.
#[test]
fn bad_records() {
    seeded(2_000..2_060, |rng| {
        let number = rng.gen_range(500..1_500);
        let readout = random_sheets::readout(rng, number);
        let bad = [&readout[..], &[3, 0, 0, 0, 0, 0]].concat();
        assert_eq!(agree::write(&bad), Err(4));
        assert_eq!(agree::write(&[&bad[..], &readout].concat()), Err(4));
        assert_eq!(agree::write(&[&bad[..], &[4]].concat()), Err(14));
    });
}

/// A million records, and then the same with the last line bad.
#[test]
fn a_million_records() {
    seeded(3_000..3_001, |rng| {
        let readout = random_sheets::readout(rng, 1_000_000);
        let mut sheet = agree::write(&readout).expect("every field is in its range");
        assert_eq!(agree::read_into(&sheet, readout.len()).as_ref(), Ok(&readout));
        assert_eq!(agree::read_into(&sheet, readout.len() - 1), Err(NotRead::OutputTooShort));
        sheet.pop();
        assert_eq!(agree::read(&sheet), Err(NotRead::BadLine(1_000_001)));
    });
}
