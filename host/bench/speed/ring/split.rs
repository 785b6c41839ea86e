//! The split test: its cost by the number of records.

use super::{mixed, Lent, Library, Plain, Plan, Side, TRIP};
use crate::meter::{Meter, Pair};
use crate::table::{Row, Table};
use crate::MOST;
use criterion::Bencher;
use std::hint::black_box;

/// The columns with the times for each record.
pub const EACH: &[&str] = &["library/record", "plain/record"];

const GROUP: &str = "ring split";

pub fn table(meter: &mut Meter) -> Table {
    let mut rows = by_number(meter);
    rows.extend(unlearnt(meter));
    Table { further: EACH, ..Table::new("ring: split test, by records", rows) }
}

/// Rings of more and more records, all the rest alike: of the three kinds mixed, which can be some
/// 550 at most, and of the shortest kind alone.
fn by_number(meter: &mut Meter) -> Vec<Row> {
    let mixtures = [1, 4, 16, 64, 256, 512].map(|records| ("mixed", mixed(records, 1)));
    let trips = [16, 64, 256, 680].map(|records| ("of kind 03", vec![TRIP; records]));
    let rows = mixtures.into_iter().chain(trips).filter_map(|(which, kinds)| {
        let what = format!("{} {which}", kinds.len());
        let lent = Plan::whole(MOST).laid(&kinds);
        let pair = same_ring(meter, GROUP, &what, &lent)?;
        Some(row(what, kinds.len(), pair))
    });
    rows.collect()
}

/// Another order of the kinds at each call, which the processor cannot have learnt.
fn unlearnt(meter: &mut Meter) -> Option<Row> {
    const RECORDS: usize = 64;
    let rings: Vec<Lent> =
        (0..256).map(|seed| Plan::whole(1024).laid(&mixed(RECORDS, seed))).collect();
    let what = "64 mixed, another order each call";
    let library = |bencher: &mut Bencher| in_turn::<Library>(bencher, &rings);
    let plain = |bencher: &mut Bencher| in_turn::<Plain>(bencher, &rings);
    let pair = meter.pair(GROUP, what, library, plain)?;
    Some(row(what, RECORDS, pair))
}

/// The split test of one ring, again and again.
pub fn same_ring(meter: &mut Meter, group: &str, what: &str, lent: &Lent) -> Option<Pair> {
    let library = |bencher: &mut Bencher| again::<Library>(bencher, lent);
    let plain = |bencher: &mut Bencher| again::<Plain>(bencher, lent);
    meter.pair(group, what, library, plain)
}

/// A row with the times for each record.
pub fn row(what: impl Into<String>, records: usize, pair: Pair) -> Row {
    let each = [pair.library, pair.plain].map(|time| format!("{:.2}", time / records as f64));
    Row { further: each.to_vec(), ..Row::new(what, pair) }
}

fn again<S: Side>(bencher: &mut Bencher, lent: &Lent) {
    bencher.iter(|| {
        let Lent { buffer, at, ring } = black_box(lent);
        black_box(S::ready(buffer, *at, ring))
    });
}

fn in_turn<S: Side>(bencher: &mut Bencher, rings: &[Lent]) {
    let mut next = rings.iter().cycle();
    bencher.iter(|| {
        let Lent { buffer, at, ring } = next.next().expect("a cycle has no end");
        black_box(S::ready(buffer, *at, ring))
    });
}
