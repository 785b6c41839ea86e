//! Readouts taken apart, and bytes that are none.

use crate::held::held;
use crate::random::{self, seeded};
use independent::{Part, Record, Ring};
use rand::rngs::SmallRng;
use rand::Rng;
use yarrowbell::{records, NotRecords};

/// Some records of any values, and their bytes.
fn row(rng: &mut SmallRng) -> (Vec<Record>, Vec<u8>) {
    let row: Vec<Record> = (0..rng.gen_range(0..12))
        .map(|_| {
            let kind = random::any(rng, &random::KINDS);
            random::record(rng, kind)
        })
        .collect();
    let bytes = row.iter().flat_map(Record::bytes).collect();
    (row, bytes)
}

/// Every row, and every front of one: the last record is then cut short.
#[test]
fn rows_and_their_fronts() {
    seeded(0..2_000, |rng| {
        let (row, bytes) = row(rng);
        let mut at = 0;
        for (whole, record) in row.iter().enumerate() {
            held(&bytes[..at], &row[..whole]);
            let (kind, length) = (bytes[at], record.bytes().len());
            for there in 1..length {
                let cut = NotRecords::Cut { at, kind, length, there };
                assert_eq!(records(&bytes[..at + there]), Err(cut));
            }
            at += length;
        }
        held(&bytes, &row);
    });
}

/// Another kind in the place of each record's.
#[test]
fn unknown_kinds() {
    seeded(2_000..2_100, |rng| {
        let (row, bytes) = row(rng);
        let mut at = 0;
        for record in &row {
            for kind in (0..=255).filter(|kind| !random::KINDS.contains(kind)) {
                let mut damaged = bytes.clone();
                damaged[at] = kind;
                assert_eq!(records(&damaged), Err(NotRecords::Kind { at, kind }));
            }
            at += record.bytes().len();
        }
    });
}

/// Any bytes are a readout exactly if the independent ring has them for one. What is told to be
/// wrong is, and the bytes before it are a readout.
#[test]
fn any_bytes() {
    let mut found = [0; 3];
    seeded(3_000..43_000, |rng| {
        let bytes: Vec<u8> =
            (0..rng.gen_range(0..40)).map(|_| random::any(rng, &[1, 2, 3, 0, 4])).collect();
        let ring = Ring { capacity: 40, start: 0, used: bytes.len() };
        let mut part = bytes.clone();
        part.resize(40, 0);
        let ready = ring.ready(&part, Part { offset: 0, size: 40 });
        let taken_apart = records(&bytes);
        assert_eq!(taken_apart.is_ok(), ready.is_ok(), "{bytes:?}");
        match taken_apart {
            Ok(_) => found[0] += 1,
            Err(NotRecords::Kind { at, kind }) => {
                assert!(records(&bytes[..at]).is_ok(), "{bytes:?}");
                assert!(kind == bytes[at] && !random::KINDS.contains(&kind), "{bytes:?}");
                found[1] += 1;
            }
            Err(NotRecords::Cut { at, kind, length, there }) => {
                assert!(records(&bytes[..at]).is_ok(), "{bytes:?}");
                assert_eq!((kind, there), (bytes[at], bytes.len() - at), "{bytes:?}");
                assert!(length == random::length(kind) && there < length, "{bytes:?}");
                found[2] += 1;
            }
            Err(NotRecords::TooMany(_)) => panic!("{bytes:?}"),
        }
    });
    assert!(found.iter().all(|times| *times > 1_000), "{found:?}");
}

/// "A capacity of 16 to 4,096 bytes".
#[test]
fn no_readout_is_longer_than_a_ring() {
    let trip = Record::Trip { clock: 1, cause: 2 };
    let answer = Record::Answer { clock: 3, ident: 1, answer: 4 };
    let row = [vec![answer; 4], vec![trip; 678]].concat();
    let mut bytes: Vec<u8> = row.iter().flat_map(Record::bytes).collect();
    assert_eq!(bytes.len(), 4096);
    held(&bytes, &row);
    bytes.push(3);
    assert_eq!(records(&bytes), Err(NotRecords::TooMany(4097)));
}

#[test]
fn in_words() {
    let told = |bytes: &[u8]| {
        let why = records(bytes).expect_err("they are no records");
        (why.at(), why.to_string())
    };
    let unknown = "answer 14: used ring bytes do not split into whole known records";
    assert_eq!(
        told(&[3, 0, 0, 0, 0, 1, 0xAB]),
        (
            Some(6),
            format!(
                "byte 6 (counted from 0) is AB, and no record is of that kind: 01 is an answer, \
                 02 a pulse, 03 a trip ({unknown})"
            )
        )
    );
    assert_eq!(
        told(&[3, 0, 0, 0, 0, 1, 2, 0, 0]),
        (
            Some(6),
            format!(
                "the record at byte 6 (counted from 0) is cut short: one of kind 02 has 9 bytes, \
                 and 3 are there ({unknown})"
            )
        )
    );
    let words = "5000 bytes cannot be a readout: a ring has at most 4096";
    assert_eq!(told(&[0; 5000]), (None, words.to_owned()));
}
