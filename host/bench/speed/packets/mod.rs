//! Packets: read by the call for any command, each kind written by its own.

mod bytes;
mod device;
mod read;
mod rehamove3;
mod rehastim2;
mod write;

pub use device::Device;
pub use rehamove3::RehaMove3;
pub use rehastim2::RehaStim2;

use crate::meter::{Meter, Pair, Side};
use crate::table::{Row, Table};

pub fn tables(meter: &mut Meter) -> Vec<Table> {
    [
        (RehaStim2::READ, rehastim2::read(meter)),
        (RehaStim2::WRITE, rehastim2::write(meter)),
        (RehaMove3::READ, rehamove3::read(meter)),
        (RehaMove3::WRITE, rehamove3::write(meter)),
    ]
    .map(|(title, rows)| Table {
        further: &["independent", "times real time"],
        ..Table::new(title, rows)
    })
    .into()
}

/// The library, plain Rust and the independent codec, for a packet that has so many bytes on the line.
fn row<D: Device>(
    meter: &mut Meter,
    group: &str,
    what: &str,
    bytes: usize,
    sides: [Side; 3],
) -> Option<Row> {
    let [library, plain, independent] = meter.in_turn(group, what, sides)?;
    let time = D::BYTE * bytes as f64;
    Some(Row::timed(what, Pair { library, plain }, time).beside(independent))
}
