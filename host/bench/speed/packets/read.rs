//! Packets read.

use super::bytes::{garbage, START};
use super::{row, Device};
use crate::fair;
use crate::meter::{Meter, Side};
use crate::table::Row;
use criterion::Bencher;
use std::hint::black_box;

/// Bytes, and what the reader answers to them.
pub struct Case {
    pub what: &'static str,
    pub bytes: Vec<u8>,
    pub answer: u8,
}

/// No packet at all.
pub fn without_packet() -> Vec<Case> {
    let cases = [
        ("no packet in 1000 bytes", garbage(1_000)),
        ("no packet in 10000 bytes", garbage(10_000)),
        ("no packet in 10000 bytes, all starts", vec![START; 10_000]),
    ];
    cases.map(|(what, bytes)| Case { what, bytes, answer: 1 }).into()
}

pub fn rows<D: Device>(meter: &mut Meter, cases: impl IntoIterator<Item = Case>) -> Vec<Row> {
    cases.into_iter().filter_map(|case| measured::<D>(meter, &case)).collect()
}

fn measured<D: Device>(meter: &mut Meter, case: &Case) -> Option<Row> {
    let Case { what, bytes, answer } = case;
    assert_eq!(fair::packet_read::<D>(bytes), *answer, "{what}");
    let sides: [Side; 3] = [
        ("library", &|bencher| again::<D, _>(bencher, bytes, D::read)),
        ("plain", &|bencher| again::<D, _>(bencher, bytes, D::plain_read)),
        ("independent", &|bencher| {
            bencher.iter(|| D::independent_read(black_box(bytes), black_box(D::LONGEST_DATA)));
        }),
    ];
    row::<D>(meter, D::READ, what, bytes.len(), sides)
}

/// The output has room for the data of any command.
fn again<D: Device, T>(bencher: &mut Bencher, bytes: &[u8], read: impl Fn(&[u8], &mut [u8]) -> T) {
    let mut out = vec![0; D::LONGEST_DATA];
    bencher.iter(|| black_box(read(black_box(bytes), black_box(&mut out[..]))));
}
