//! Random readouts and sheets.

use crate::agree;
use crate::lines::{both_ways, line, sheet, sheet_of};
use crate::random_sheets::{self, bad_record, clocks, damaged, readout, record};
use crate::seeded::seeded;
use independent::sheet::{in_range, records, NotRead};
use independent::Record;
use rand::rngs::SmallRng;
use rand::Rng;

/// What reads, written again, is the sheet. Tells whether it reads.
fn back(sheet: &[u8]) -> bool {
    match agree::read(sheet) {
        Ok(readout) => {
            assert_eq!(agree::write(&readout).as_deref(), Ok(sheet));
            true
        }
        Err(told) => {
            assert_ne!(told, NotRead::OutputTooShort);
            false
        }
    }
}

#[test]
fn good_readouts() {
    seeded(0..40_000, |rng| {
        let number = rng.gen_range(0..20);
        both_ways(&records(&readout(rng, number)).expect("it splits"));
    });
}

#[test]
fn fields_out_of_range() {
    seeded(100_000..140_000, |rng| {
        let number = rng.gen_range(1..10);
        let bad = rng.gen_range(0..number);
        let all: Vec<Record> = (0..)
            .zip(clocks(rng, number))
            .map(
                |(place, clock)| {
                    if place == bad {
                        bad_record(rng, clock)
                    } else {
                        record(rng, clock)
                    }
                },
            )
            .collect();
        let good: Vec<bool> = all.iter().map(in_range).collect();
        assert_eq!(good.iter().position(|good| !good), Some(bad));
        let readout: Vec<u8> = all.iter().flat_map(Record::bytes).collect();
        assert_eq!(agree::write(&readout), Err(4));
        assert_eq!(agree::read(&sheet_of(&all)), Err(NotRead::BadLine(2 + bad)));
    });
}

#[test]
fn readouts_cut_and_of_unknown_kinds() {
    let mut answers = [0; 17];
    seeded(200_000..260_000, |rng| {
        let number = rng.gen_range(1..8);
        let mut readout = readout(rng, number);
        let place = rng.gen_range(0..readout.len());
        match rng.gen_range(0..3) {
            0 => readout.truncate(place),
            1 => drop(readout.remove(place)),
            _ => readout[place] = rng.gen(),
        }
        let expected = match records(&readout) {
            None => 14,
            Some(records) if records.iter().all(in_range) => 0,
            Some(_) => 4,
        };
        assert_eq!(agree::write(&readout).err().unwrap_or(0), expected);
        answers[usize::from(expected)] += 1;
    });
    assert!([0, 4, 14].iter().all(|&answer| answers[answer] > 5_000), "{answers:?}");
}

/// Bytes that are no record's, most of them small.
#[test]
fn any_bytes() {
    let mut answers = [0; 17];
    seeded(300_000..500_000, |rng| {
        let bytes: Vec<u8> = (0..rng.gen_range(0..30))
            .map(|_| if rng.gen_ratio(3, 4) { rng.gen_range(0..=4) } else { rng.gen() })
            .collect();
        answers[usize::from(agree::write(&bytes).err().unwrap_or(0))] += 1;
    });
    assert!([0, 4, 14].iter().all(|&answer| answers[answer] > 1_000), "{answers:?}");
}

#[test]
fn damaged_sheets() {
    let mut answers = [0; 2];
    seeded(500_000..560_000, |rng| {
        let number = rng.gen_range(0..6);
        let mut sheet = random_sheets::sheet(rng, number);
        for _ in 0..[1, 1, 1, 2, 3][rng.gen_range(0..5)] {
            sheet = damaged(rng, sheet);
        }
        answers[usize::from(back(&sheet))] += 1;
    });
    assert!(answers.iter().all(|&times| times > 5_000), "{answers:?}");
}

/// What may stand in a field, good or not.
fn field(rng: &mut SmallRng) -> String {
    const FIELDS: [&str; 24] = [
        "",
        "",
        "",
        "0",
        "1",
        "2",
        "3",
        "8",
        "9",
        "10",
        "99",
        "100",
        "127",
        "128",
        "500",
        "501",
        "00",
        "9999",
        "10000",
        "4294967295",
        "4294967296",
        "pulse",
        "answer",
        "trip",
    ];
    FIELDS[rng.gen_range(0..FIELDS.len())].into()
}

/// Lines of fields that may stand in any, most of them in the place of one of the same kind.
#[test]
fn fields_put_together() {
    let mut answers = [0; 2];
    seeded(600_000..640_000, |rng| {
        let mut sheet = sheet(&[]);
        for clock in clocks(rng, 2) {
            let line = line(&record(rng, clock));
            let mut fields: Vec<String> = line.split(',').map(String::from).collect();
            for _ in 0..rng.gen_range(0..3) {
                let place = rng.gen_range(0..fields.len());
                fields[place] = field(rng);
            }
            sheet.extend(fields.join(",").bytes().chain([b'\n']));
        }
        answers[usize::from(back(&sheet))] += 1;
    });
    assert!(answers.iter().all(|&times| times > 5_000), "{answers:?}");
}

/// Bytes that mean something in a sheet, behind its header.
#[test]
fn meaningful_bytes() {
    seeded(700_000..740_000, |rng| {
        let mut sheet = sheet(&["70000,pulse,1,100,10,"]);
        let bytes = b"0123456789,,,,,,\n\nanswerpulsetrip\r \"";
        sheet.extend((0..rng.gen_range(0..40)).map(|_| bytes[rng.gen_range(0..bytes.len())]));
        back(&sheet);
    });
}
