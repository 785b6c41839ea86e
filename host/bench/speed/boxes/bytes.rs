//! Bytes.

use super::measured::{self, Case, Kind};
use super::rings::full;
use super::scene::{frame, single, update, LIST};
use super::{Calls, Scene};
use crate::meter::Meter;
use crate::table::{self, Table};
use independent::Command;

const KIND: Kind =
    Kind { name: "byte", titles: ["byte, in place", "byte, by value"], time: table::BYTE };

/// Whole frames that are accepted, one Single for each module, and strays, which are answered 2.
pub fn tables(meter: &mut Meter) -> Vec<Table> {
    let init = frame(&Command::Init(LIST));
    let singles = [single(0, 60), single(7, 60)].concat();
    let [(_, pulses), ..] = full();
    let scenes = [
        ("Init, idle", Scene::idle(&[]), init, 0),
        ("Update of 8 channels, running", Scene::running(&[]), update(), 0),
        ("Single, idle", Scene::idle(&[]), singles, 0),
        ("stray, idle", Scene::idle(&[]), vec![0x55; 8], 2),
        (
            "Update of 8 channels, running, full ring of pulses",
            Scene::running(&pulses),
            update(),
            0,
        ),
    ];
    let cases = scenes.map(|(what, scene, bytes, answer)| {
        let calls = Calls::Bytes(bytes);
        Case { what: what.to_owned(), scene, calls, answer }
    });
    measured::tables(meter, &KIND, cases.into())
}
