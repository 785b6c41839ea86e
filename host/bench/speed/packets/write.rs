//! Packets written.

use super::{row, Device};
use crate::fair;
use crate::meter::{Meter, Side};
use crate::table::Row;
use criterion::Bencher;
use std::hint::black_box;
use yarrowbell::raw::Wrote;

/// The library's call is that of the command's kind.
pub fn measured<D: Device>(
    meter: &mut Meter,
    what: &str,
    packet: u8,
    command: D::Command,
    library: impl Fn(u8, &mut [u8]) -> Wrote,
) -> Option<Row> {
    let library = |out: &mut [u8]| library(black_box(packet), out);
    let bytes = fair::packet_written::<D>(packet, command, library);
    let plain = |out: &mut [u8]| D::plain_write(black_box(packet), *black_box(&command), out);
    let sides: [Side; 3] = [
        ("library", &|bencher| again::<D, _>(bencher, library)),
        ("plain", &|bencher| again::<D, _>(bencher, plain)),
        ("independent", &|bencher| {
            bencher.iter(|| D::independent_write(black_box(packet), *black_box(&command)));
        }),
    ];
    row::<D>(meter, D::WRITE, what, bytes.len(), sides)
}

/// The output has room for the longest packet.
fn again<D: Device, T>(bencher: &mut Bencher, write: impl Fn(&mut [u8]) -> T) {
    let mut out = vec![0; D::LONGEST_WRITTEN];
    bencher.iter(|| black_box(write(black_box(&mut out[..]))));
}
