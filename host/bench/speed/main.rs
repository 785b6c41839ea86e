//! The library against plain Rust in one run: `yarrowbell bench`.
//!
//! Both are called as a Rust program calls them, the library by its safe calls and the plain one,
//! `independent::plain`, by its entry points, which are never inlined. Packets and sheets are measured by
//! a third side too, the independent codec that is near to the paper and slow. No time is judged here, the
//! tables are for people.

mod boxes;
mod fair;
mod frames;
mod meter;
mod names;
mod packets;
#[path = "../../tests/shared/random_bytes.rs"]
mod random_bytes;
#[path = "../../tests/shared/random_packets.rs"]
mod random_packets;
#[path = "../../tests/shared/random_pulses.rs"]
mod random_pulses;
#[path = "../../tests/shared/random_sheets.rs"]
mod random_sheets;
mod ring;
#[path = "../../tests/shared/seeded.rs"]
mod seeded;
mod sheets;
mod table;

use meter::Meter;

/// The greatest capacity of a ring.
const MOST: usize = 4096;

fn main() {
    fair::check();
    let mut meter = Meter::new();
    let mut tables = boxes::tables(&mut meter);
    tables.extend(frames::tables(&mut meter));
    tables.extend(packets::tables(&mut meter));
    tables.extend(ring::tables(&mut meter));
    tables.extend(sheets::tables(&mut meter));
    table::print(&tables);
    meter.check_names();
}
