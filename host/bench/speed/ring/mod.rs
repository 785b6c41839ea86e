//! The ring by itself.

mod lent;
mod nothing_else;
mod pushes;
mod readouts;
mod record;
mod side;
mod split;

pub use lent::{Bodies, Lent, Plan};
pub use record::{any, bytes_of, mixed, ANSWER, PULSE, TRIP};
pub use side::{Library, Plain, Side};

use crate::meter::Meter;
use crate::table::Table;

pub fn tables(meter: &mut Meter) -> Vec<Table> {
    let mut pushes = pushes::cases(meter);
    pushes.extend(pushes::runs(meter));
    vec![
        split::table(meter),
        nothing_else::table(meter),
        Table::new("ring: push", pushes),
        readouts::table(meter),
    ]
}
