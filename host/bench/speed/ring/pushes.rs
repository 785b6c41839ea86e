//! Pushes: long runs of them on a full ring, and single cases again and again.

use super::{any, bytes_of, mixed, Lent, Library, Plain, Plan, Side, ANSWER, PULSE, TRIP};
use crate::meter::Meter;
use crate::table::Row;
use crate::MOST;
use criterion::Bencher;
use independent::Record;
use rand::rngs::SmallRng;
use rand::SeedableRng;
use std::hint::black_box;

const GROUP: &str = "ring push";

/// Full rings, where each push goes on with what the last one left, and old records go as new ones
/// come. The write goes round the part's end when its turn comes, seldom in a large ring.
pub fn runs(meter: &mut Meter) -> Vec<Row> {
    let long = 4096;
    let runs = [
        ("run of kind 01, capacity 4096", MOST, vec![ANSWER; long]),
        ("run of kind 02, capacity 4096", MOST, vec![PULSE; long]),
        ("run of kind 03, capacity 4096", MOST, vec![TRIP; long]),
        ("run of mixed kinds, capacity 4096", MOST, mixed(long, 1)),
        ("run of kind 01, capacity 16", 16, vec![ANSWER; long]),
    ];
    let rows = runs.into_iter().filter_map(|(what, capacity, kinds)| {
        let mut rng = SmallRng::seed_from_u64(1);
        let records: Vec<Record> = kinds.iter().map(|&kind| any(&mut rng, kind)).collect();
        let library = |bencher: &mut Bencher| going_on::<Library>(bencher, capacity, &records);
        let plain = |bencher: &mut Bencher| going_on::<Plain>(bencher, capacity, &records);
        Some(Row::new(what, meter.pair(GROUP, what, library, plain)?))
    });
    rows.collect()
}

/// Rings from which a push drops as many records as it says, and records to push. A full ring is
/// filled to its last byte, so that the new record begins where the oldest did.
pub fn cases(meter: &mut Meter) -> Vec<Row> {
    let roomy = |start| Plan { start, ..Plan::whole(MOST) }.laid(&[ANSWER; 100]);
    let answers = |start| Plan { start, ..Plan::whole(585 * 7) }.laid(&[ANSWER; 585]);
    let trips = |start| Plan { start, ..Plan::whole(682 * 6) }.laid(&[TRIP; 682]);
    let cases = [
        ("kind 01, drops none", roomy(0), ANSWER),
        ("kind 01, drops none, round the end", roomy(MOST - 703), ANSWER),
        ("kind 01, drops one 01", answers(0), ANSWER),
        ("kind 01, drops one 01, round the end", answers(585 * 7 - 3), ANSWER),
        ("kind 02, drops two 03", trips(0), PULSE),
        ("kind 02, drops two 03, round the end", trips(682 * 6 - 3), PULSE),
    ];
    let rows = cases.into_iter().filter_map(|(what, lent, kind)| {
        let record = any(&mut SmallRng::seed_from_u64(1), kind);
        let library = |bencher: &mut Bencher| same_ring::<Library>(bencher, &lent, record);
        let plain = |bencher: &mut Bencher| same_ring::<Plain>(bencher, &lent, record);
        Some(Row::new(what, meter.pair(GROUP, what, library, plain)?))
    });
    rows.collect()
}

/// These records pushed in turn, on a ring that they have filled already.
fn going_on<S: Side>(bencher: &mut Bencher, capacity: usize, records: &[Record]) {
    let Lent { mut buffer, at, mut ring } = Plan::whole(capacity).laid(&[]);
    for &record in records {
        S::push(&mut buffer, at, &mut ring, record).expect("a good ring");
    }
    let mut turn = records.iter().cycle();
    bencher.iter(|| {
        let record = *turn.next().expect("a cycle has no end");
        black_box(S::push(&mut buffer, at, &mut ring, record))
    });
}

/// The push of one record on one ring, again and again. Before each the ring is made whole, in
/// place: the kind bytes of its two oldest records are put back, for they may be written over.
fn same_ring<S: Side>(bencher: &mut Bencher, lent: &Lent, record: Record) {
    let Lent { mut buffer, at, ring } = lent.clone();
    let oldest = at.offset + ring.start;
    let kind = buffer[oldest];
    let second = at.offset + (ring.start + bytes_of(kind)) % ring.capacity;
    bencher.iter(|| {
        (buffer[oldest], buffer[second]) = (kind, kind);
        let mut ring = black_box(ring);
        black_box(S::push(&mut buffer, at, &mut ring, black_box(record))).ok();
        black_box(ring)
    });
}
