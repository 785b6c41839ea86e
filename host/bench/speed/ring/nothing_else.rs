//! The split test on rings of one number of records that differ in all the rest.

use super::split::{row, same_ring, EACH};
use super::{mixed, Bodies, Lent, Plan, ANSWER, PULSE, TRIP};
use crate::meter::{Meter, Pair};
use crate::table::Table;

const RECORDS: usize = 64;

pub fn table(meter: &mut Meter) -> Table {
    let measured = rings().into_iter().filter_map(|(what, lent)| {
        Some((what, same_ring(meter, "ring of 64 records", what, &lent)?))
    });
    let pairs: Vec<(&str, Pair)> = measured.collect();
    let library = range(&pairs, |pair| pair.library);
    let plain = range(&pairs, |pair| pair.plain);
    let note = format!("For each record the library takes {library}, plain {plain}.");
    let rows = pairs.into_iter().map(|(what, pair)| row(what, RECORDS, pair)).collect();
    Table { further: EACH, note, ..Table::new("ring: split test, 64 records", rows) }
}

fn rings() -> Vec<(&'static str, Lent)> {
    let usual = Plan { start: 200, offset: 1001, length: 4096, ..Plan::whole(1024) };
    let mixed = mixed(RECORDS, 1);
    let laid = |plan: Plan| plan.laid(&mixed);
    vec![
        ("capacity 576", laid(Plan { capacity: 576, start: 0, ..usual })),
        ("capacity 1024", laid(Plan { capacity: 1024, start: 0, ..usual })),
        ("capacity 4096", laid(Plan { capacity: 4096, start: 0, length: 8192, ..usual })),
        ("buffer of 4 KiB", laid(Plan { length: 4 << 10, ..usual })),
        ("buffer of 64 KiB", laid(Plan { length: 64 << 10, offset: 33_333, ..usual })),
        ("buffer of 1 MiB", laid(Plan { length: 1 << 20, offset: 777_777, ..usual })),
        ("start at 500", laid(Plan { start: 500, ..usual })),
        ("start at 800, round the end", laid(Plan { start: 800, ..usual })),
        ("start at 1023, round the end", laid(Plan { start: 1023, ..usual })),
        ("bodies of 00", laid(Plan { bodies: Bodies::Zeros, ..usual })),
        ("bodies of FF", laid(Plan { bodies: Bodies::Ones, ..usual })),
        ("kind 01 alone, 7 bytes", usual.laid(&[ANSWER; RECORDS])),
        ("kind 02 alone, 9 bytes", usual.laid(&[PULSE; RECORDS])),
        ("kind 03 alone, 6 bytes", usual.laid(&[TRIP; RECORDS])),
    ]
}

/// The smallest and the greatest time for each record.
fn range(pairs: &[(&str, Pair)], side: fn(&Pair) -> f64) -> String {
    let times = || pairs.iter().map(|(_, pair)| side(pair) / RECORDS as f64);
    let (least, most) = (times().fold(f64::MAX, f64::min), times().fold(0.0, f64::max));
    format!("{least:.2} to {most:.2} ns ({:.2} times)", most / least)
}
