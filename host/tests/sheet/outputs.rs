//! Outputs of every size: too short is 16, and any other has the same bytes at its start.

use crate::agree;
use crate::random_sheets;
use crate::seeded::seeded;
use independent::sheet::NotRead;

#[test]
fn every_room() {
    seeded(0..50, |rng| {
        for number in 0..=9 {
            let readout = random_sheets::readout(rng, number);
            let sheet = agree::write(&readout).expect("it is good");
            for room in 0..sheet.len() + 40 {
                let expected = if room < sheet.len() { Err(16) } else { Ok(sheet.clone()) };
                assert_eq!(agree::write_into(&readout, room), expected);
            }
            for room in 0..readout.len() + 20 {
                let short = Err(NotRead::OutputTooShort);
                let expected = if room < readout.len() { short } else { Ok(readout.clone()) };
                assert_eq!(agree::read_into(&sheet, room), expected);
            }
        }
    });
}
