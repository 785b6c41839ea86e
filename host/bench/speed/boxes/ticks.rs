//! Ticks.

use super::measured::{self, Case, Kind};
use super::rings::full;
use super::scene::CYCLE;
use super::{Calls, Scene};
use crate::meter::Meter;
use crate::table::{self, Table};

const KIND: Kind =
    Kind { name: "tick", titles: ["tick, in place", "tick, by value"], time: table::TICK };

/// A running list goes through one whole cycle of 250 ticks, of which eight release a pulse; on a full
/// ring each of these drops what is oldest. The others have as many ticks.
pub fn tables(meter: &mut Meter) -> Vec<Table> {
    let mut scenes = vec![
        ("idle, empty ring".to_owned(), Scene::idle(&[])),
        ("running 8 channels, empty ring".to_owned(), Scene::running(&[])),
        ("tripped, empty ring".to_owned(), Scene::tripped(&[])),
    ];
    for (name, kinds) in full() {
        let records = kinds.len();
        scenes.push((format!("idle, full ring, {records} {name}"), Scene::idle(&kinds)));
        scenes.push((format!("running, full ring, {records} {name}"), Scene::running(&kinds)));
    }
    let cases = scenes.into_iter().map(|(what, scene)| {
        let calls = Calls::Ticks(CYCLE);
        Case { what, scene, calls, answer: 0 }
    });
    measured::tables(meter, &KIND, cases.collect())
}
