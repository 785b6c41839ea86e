//! The example of request 03, which is case 13 of document 01, and a line of each other kind.

use crate::agree;
use crate::lines::{both_ways, line, sheet, HEADER};
use independent::sheet::records;
use independent::Record;

const CASE_13: [u8; 27] = [
    0x02, 0x64, 0x00, 0x00, 0x00, 0x01, 0xC8, 0x00, 0x28, 0x02, 0x73, 0x00, 0x00, 0x00, 0x03, 0x2C,
    0x01, 0x1E, 0x02, 0x91, 0x00, 0x00, 0x00, 0x03, 0x2C, 0x01, 0x1E,
];

/// A readout and its sheet, each made from the other.
fn stands(readout: &[u8], sheet: &[u8]) {
    assert_eq!(agree::write(readout).as_deref(), Ok(sheet));
    assert_eq!(agree::read(sheet).as_deref(), Ok(readout));
}

#[test]
fn case_13() {
    let whole = "clock,kind,channel,width_us,current_ma,code\n\
                 100,pulse,1,200,40,\n\
                 115,pulse,3,300,30,\n\
                 145,pulse,3,300,30,\n";
    stands(&CASE_13, whole.as_bytes());
    assert_eq!(
        records(&CASE_13),
        Some(vec![
            Record::Pulse { clock: 100, channel: 1, width: 200, current: 40 },
            Record::Pulse { clock: 115, channel: 3, width: 300, current: 30 },
            Record::Pulse { clock: 145, channel: 3, width: 300, current: 30 },
        ])
    );
}

#[test]
fn no_record() {
    stands(&[], HEADER.as_bytes());
    assert_eq!(records(&[]), Some(vec![]));
}

/// "Fields that a record lacks are empty, but for Ident, which stands in the channel column."
#[test]
fn each_kind() {
    let answer = Record::Answer { clock: 5, ident: 3, answer: 0 };
    let pulse = Record::Pulse { clock: 5, channel: 8, width: 10, current: 127 };
    let trip = Record::Trip { clock: 255, cause: 2 };
    assert_eq!(line(&answer), "5,answer,3,,,0");
    assert_eq!(line(&pulse), "5,pulse,8,10,127,");
    assert_eq!(line(&trip), "255,trip,,,,2");
    stands(&[1, 5, 0, 0, 0, 3, 0], &sheet(&[&line(&answer)]));
    stands(&[2, 5, 0, 0, 0, 8, 10, 0, 127], &sheet(&[&line(&pulse)]));
    stands(&[3, 255, 0, 0, 0, 2], &sheet(&[&line(&trip)]));
    let all = [answer, pulse, trip, answer];
    both_ways(&all);
    let readout: Vec<u8> = all.iter().flat_map(Record::bytes).collect();
    assert_eq!(records(&readout).as_deref(), Some(&all[..]));
}
