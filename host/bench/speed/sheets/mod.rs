//! The trace as a text sheet, written and read.

mod cases;
mod side;

pub use side::{Call, Independent, Library, Plain, Side};

use crate::fair;
use crate::meter::{self, Meter, Pair};
use crate::table::{Row, Table};
use cases::Case;
use criterion::Bencher;
use std::hint::black_box;

/// The columns behind the ratio.
const FURTHER: &[&str] = &["independent", "library/record", "plain/record"];

const WRITE: &str = "sheet write";
const READ: &str = "sheet read";

pub fn tables(meter: &mut Meter) -> Vec<Table> {
    let cases = cases::all();
    let [write, read] = [WRITE, READ]
        .map(|group| cases.iter().filter_map(|case| row(meter, group, case)).collect());
    [("sheet: write", write), ("sheet: read", read)]
        .map(|(title, rows)| Table { further: FURTHER, ..Table::new(title, rows) })
        .into()
}

fn row(meter: &mut Meter, group: &str, case: &Case) -> Option<Row> {
    let Case { what, records, readout, sheet, good } = case;
    let room = case.room();
    let (bytes, answer) = match group {
        WRITE => (readout, fair::sheet_written(readout, room)),
        _ => (sheet, fair::sheet_read(sheet, room)),
    };
    assert_eq!(answer == 0, *good, "{what}");
    let again = |call: Call| {
        move |bencher: &mut Bencher| {
            let mut out = vec![0; room];
            bencher.iter(|| black_box(call(black_box(bytes), black_box(&mut out[..]))));
        }
    };
    let calls: [Call; 3] = match group {
        WRITE => [Library::write, Plain::write, Independent::write],
        _ => [Library::read, Plain::read, Independent::read],
    };
    let [library, plain, independent] = &calls.map(again);
    let sides: [meter::Side; 3] =
        [("library", library), ("plain", plain), ("independent", independent)];
    let [library, plain, independent] = meter.in_turn(group, what, sides)?;
    let each = [library, plain].map(|time| format!("{:.2}", time / *records as f64));
    let row = Row { further: each.to_vec(), ..Row::new(*what, Pair { library, plain }) };
    Some(row.beside(independent))
}
