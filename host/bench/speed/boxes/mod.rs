//! The box: its bytes and its ticks, in place and by value, and its readouts.

mod bytes;
mod calls;
mod measured;
mod readouts;
mod rings;
mod scene;
mod side;
mod ticks;

pub use calls::Calls;
pub use scene::Scene;
pub use side::{ByValue, InPlace, Plain, Side};

use crate::meter::Meter;
use crate::table::Table;

pub fn tables(meter: &mut Meter) -> Vec<Table> {
    let ticks = ticks::tables(meter);
    let bytes = bytes::tables(meter);
    ticks.into_iter().chain(bytes).chain([readouts::table(meter)]).collect()
}
