//! Frames written.

use super::{settings, ALL, INIT, SINGLE};
use crate::meter::Meter;
use crate::table::{Row, Table, BYTE};
use criterion::Bencher;
use independent::plain::codec;
use soak::alike;
use std::hint::black_box;
use yarrowbell::calls;
use yarrowbell::raw::Wrote;

/// The bytes of the longest frame, an Update of 8 channels.
const LONGEST: usize = 25;

pub fn table(meter: &mut Meter) -> Table {
    let rows = [
        init(meter),
        update(meter, "Update of 1 channel", 1),
        update(meter, "Update of 8 channels", ALL),
        row(meter, "Stop", calls::write_stop, codec::write_stop),
        single(meter),
    ];
    let rows = rows.into_iter().flatten().collect();
    Table::timed("frame write", rows)
}

fn init(meter: &mut Meter) -> Option<Row> {
    let init = alike::init(INIT);
    row(
        meter,
        "Init",
        |out| calls::write_init(*black_box(&init), out),
        |out| codec::write_init(*black_box(&INIT), out),
    )
}

fn update(meter: &mut Meter, what: &str, count: usize) -> Option<Row> {
    let plain = settings(count);
    let library = alike::settings(plain);
    row(
        meter,
        what,
        |out| calls::write_update(*black_box(&library), count, out),
        |out| codec::write_update(black_box(&plain), count, out),
    )
}

fn single(meter: &mut Meter) -> Option<Row> {
    let single = alike::single(SINGLE);
    row(
        meter,
        "Single",
        |out| calls::write_single(*black_box(&single), out),
        |out| codec::write_single(*black_box(&SINGLE), out),
    )
}

fn row<P>(
    meter: &mut Meter,
    what: &str,
    library: impl Fn(&mut [u8]) -> Wrote,
    plain: impl Fn(&mut [u8]) -> P,
) -> Option<Row> {
    let time = BYTE * library(&mut [0; LONGEST]).used as f64;
    let library = |bencher: &mut Bencher| again(bencher, &library);
    let plain = |bencher: &mut Bencher| again(bencher, &plain);
    Some(Row::timed(what, meter.pair("frame write", what, library, plain)?, time))
}

/// The output has room for the longest frame.
fn again<T>(bencher: &mut Bencher, write: impl Fn(&mut [u8]) -> T) {
    let mut out = [0; LONGEST];
    bencher.iter(|| black_box(write(black_box(&mut out))));
}
