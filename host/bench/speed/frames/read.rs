//! Frames read.

use super::{settings, ALL, INIT, SINGLE};
use crate::meter::Meter;
use crate::table::{Row, Table, BYTE};
use criterion::Bencher;
use independent::plain::codec;
use independent::{check, compose, Command};
use std::hint::black_box;
use yarrowbell::calls;

pub fn table(meter: &mut Meter) -> Table {
    let one = Command::Update(settings(1));
    let all = Command::Update(settings(ALL));
    let rows = [
        row(meter, "Init", &Command::Init(INIT), ALL, calls::read_init, codec::read_init),
        row(meter, "Update of 1 channel", &one, 1, calls::read_update, codec::read_update),
        row(meter, "Update of 8 channels", &all, ALL, calls::read_update, codec::read_update),
        row(meter, "Stop", &Command::Stop, ALL, calls::read_stop, codec::read_stop),
        row(meter, "Single", &Command::Single(SINGLE), ALL, calls::read_single, codec::read_single),
    ];
    let rows = rows.into_iter().flatten().collect();
    Table::timed("frame read", rows)
}

fn row<L, P>(
    meter: &mut Meter,
    what: &str,
    command: &Command,
    count: usize,
    library: impl Fn(&[u8], usize) -> L,
    plain: impl Fn(&[u8], usize) -> P,
) -> Option<Row> {
    let frame = compose(command, count, check(command));
    let library = |bencher: &mut Bencher| again(bencher, &frame, count, &library);
    let plain = |bencher: &mut Bencher| again(bencher, &frame, count, &plain);
    let time = BYTE * frame.len() as f64;
    Some(Row::timed(what, meter.pair("frame read", what, library, plain)?, time))
}

fn again<T>(bencher: &mut Bencher, frame: &[u8], count: usize, read: impl Fn(&[u8], usize) -> T) {
    bencher.iter(|| black_box(read(black_box(frame), black_box(count))));
}
