//! Every single damage of some sheets.

use crate::agree;
use crate::lines::sheet;
use crate::random_sheets;
use crate::seeded::seeded;
use independent::sheet::NotRead;

/// The line that a place of a sheet is in.
fn line(sheet: &[u8], place: usize) -> usize {
    1 + sheet[..place].iter().filter(|byte| **byte == b'\n').count()
}

/// Reads a damaged sheet. A sheet that reads is the one that its records are written as; one that does
/// not is bad where it is damaged, or a line on. Tells whether it reads.
fn read(damaged: &[u8], first: usize) -> bool {
    match agree::read(damaged) {
        Ok(readout) => {
            assert_eq!(agree::write(&readout).as_deref(), Ok(damaged));
            true
        }
        Err(NotRead::BadLine(line)) => {
            assert!([first, first + 1].contains(&line), "{}", String::from_utf8_lossy(damaged));
            false
        }
        Err(NotRead::OutputTooShort) => panic!("there is room"),
    }
}

/// Every byte replaced by every other, left out and doubled.
fn every_damage(sheet: &[u8]) -> [u32; 2] {
    let mut answers = [0; 2];
    let mut told = |reads: bool| answers[usize::from(reads)] += 1;
    for place in 0..sheet.len() {
        let first = line(sheet, place);
        let mut damaged = sheet.to_vec();
        for byte in 0..=255 {
            damaged[place] = byte;
            told(read(&damaged, first));
        }
        damaged.remove(place);
        told(read(&damaged, first));
        damaged.insert(place, sheet[place]);
        damaged.insert(place, sheet[place]);
        told(read(&damaged, first));
    }
    answers
}

#[test]
fn of_each_kind() {
    let [bad, good] = every_damage(&sheet(&[
        "99,pulse,8,500,127,",
        "9,answer,3,,,10",
        "4294967295,trip,,,,2",
        "4294967295,pulse,1,10,1,",
        "10000,answer,0,,,0",
    ]));
    assert!(bad > 30_000 && good > 400, "{bad} {good}");
}

#[test]
fn of_random_sheets() {
    let mut answers = [0; 2];
    seeded(0..4, |rng| {
        let [bad, good] = every_damage(&random_sheets::sheet(rng, 4));
        answers = [answers[0] + bad, answers[1] + good];
    });
    assert!(answers.iter().all(|&times| times > 1_000), "{answers:?}");
}
