//! Sheets, written and read on every side.

use super::same::same_three;
use crate::random_sheets::{bad_record, damaged, readout, sheet};
use crate::seeded::seeded;
use crate::sheets::{Call, Independent, Library, Plain, Side};
use rand::Rng;

const CASES: u64 = 10_000;

pub fn check() {
    seeded(0..CASES, |rng| {
        let number = rng.gen_range(0..30);
        let mut readout = readout(rng, number);
        let room = rng.gen_range(0..=44 + 4 * readout.len());
        sheet_written(&readout, room);
        sheet_written(&readout, 44 + 4 * readout.len());
        let clock = rng.gen();
        readout.extend(bad_record(rng, clock).bytes());
        sheet_written(&readout, room);
        readout.pop();
        sheet_written(&readout, room);

        let sheet = sheet(rng, number);
        sheet_read(&sheet, rng.gen_range(0..=sheet.len()));
        sheet_read(&sheet, sheet.len());
        let damaged = damaged(rng, sheet);
        sheet_read(&damaged, damaged.len());
    });
    println!(
        "library, plain and independent sheet agree on {CASES} random readouts, good, out of range \
         and cut, and on {CASES} random sheets, whole and damaged"
    );
}

/// What the writer answers to a readout. Stops at the first difference.
pub fn sheet_written(readout: &[u8], room: usize) -> u64 {
    compared(
        "a sheet that is written",
        readout,
        room,
        [Library::write, Plain::write, Independent::write],
    )
}

/// What the reader answers to a sheet. Stops at the first difference.
pub fn sheet_read(sheet: &[u8], room: usize) -> u64 {
    compared("a sheet that is read", sheet, room, [Library::read, Plain::read, Independent::read])
}

fn compared(what: &str, bytes: &[u8], room: usize, calls: [Call; 3]) -> u64 {
    let mut outs = [(); 3].map(|()| vec![0xA5; room]);
    let [first, second, third] = &mut outs;
    let [library, plain, independent] = calls;
    let reports = [library(bytes, first), plain(bytes, second), independent(bytes, third)];
    let told = (bytes, room);
    same_three(what, &told, &reports);
    same_three("the output of a sheet", &told, &outs);
    reports[0].0
}
