//! Readouts of a box: its record's tests, the split test and the copy of all used bytes.

use super::rings::full;
use super::Scene;
use crate::fair;
use crate::meter::Meter;
use crate::ring::mixed;
use crate::table::{Row, Table, TICK};
use criterion::Bencher;
use soak::alike;
use std::hint::black_box;
use yarrowbell::calls;

/// Boxes with no records, with a few and with full rings.
pub fn table(meter: &mut Meter) -> Table {
    let [(_, pulses), _, (_, random)] = full();
    let scenes = [
        ("idle, empty ring", Scene::idle(&[])),
        ("idle, 16 mixed", Scene::idle(&mixed(16, 1))),
        ("idle, full of pulses", Scene::idle(&pulses)),
        ("idle, full of a random mix", Scene::idle(&random)),
        ("running, full of pulses", Scene::running(&pulses)),
    ];
    let rows = scenes.into_iter().filter_map(|(name, scene)| {
        let what = format!("{name}, {} bytes", scene.record.ring.used);
        fair::read_out(&scene);
        let library = |bencher: &mut Bencher| library(bencher, &scene);
        let plain = |bencher: &mut Bencher| plain(bencher, &scene);
        Some(Row::timed(&what, meter.pair("box readout", &what, library, plain)?, TICK))
    });
    Table::timed("readout of a box", rows.collect())
}

fn library(bencher: &mut Bencher, scene: &Scene) {
    let record = alike::record(&scene.record);
    let at = alike::part(scene.at);
    let mut out = vec![0; scene.record.ring.used];
    bencher.iter(|| {
        let record = *black_box(&record);
        black_box(calls::readout(record, black_box(&scene.buffer), at, black_box(&mut out)))
    });
}

fn plain(bencher: &mut Bencher, scene: &Scene) {
    let mut out = vec![0; scene.record.ring.used];
    bencher.iter(|| {
        let record = black_box(&scene.record);
        black_box(record.read_out(black_box(&scene.buffer), scene.at, black_box(&mut out)))
    });
}
