//! Readouts: the split test and the copy of all used bytes.

use super::{mixed, Lent, Library, Plain, Plan, Side};
use crate::meter::Meter;
use crate::table::{Row, Table};
use crate::MOST;
use criterion::Bencher;
use std::hint::black_box;

/// Mixed records, from the part's beginning, and once round its end.
pub fn table(meter: &mut Meter) -> Table {
    let rings = [(1, 0), (16, 0), (128, 0), (512, 0), (512, MOST / 2)];
    let rows = rings.into_iter().filter_map(|(records, start)| {
        let lent = Plan { start, ..Plan::whole(MOST) }.laid(&mixed(records, 1));
        let round = if start > 0 { ", round the end" } else { "" };
        let what = format!("{records} mixed, {} bytes{round}", lent.ring.used);
        let library = |bencher: &mut Bencher| again::<Library>(bencher, &lent);
        let plain = |bencher: &mut Bencher| again::<Plain>(bencher, &lent);
        let pair = meter.pair("ring readout", &what, library, plain)?;
        Some(Row::new(what, pair))
    });
    Table::new("ring: readout", rows.collect())
}

fn again<S: Side>(bencher: &mut Bencher, lent: &Lent) {
    let mut out = vec![0; lent.ring.used];
    bencher.iter(|| {
        let Lent { buffer, at, ring } = black_box(lent);
        black_box(S::read_out(buffer, *at, ring, black_box(&mut out)))
    });
}
