//! Calls on a box, measured on every side.

use super::{ByValue, Calls, InPlace, Plain, Scene, Side};
use crate::fair;
use crate::meter::{self, Meter, Pair};
use crate::table::{Row, Table};
use criterion::Bencher;
use std::hint::black_box;

/// A call that has a time to be done in.
pub struct Kind {
    pub name: &'static str,
    pub titles: [&'static str; 2],
    /// The nanoseconds from one to the next in real time.
    pub time: f64,
}

/// Calls, and what the last of them answers.
pub struct Case {
    pub what: String,
    pub scene: Scene,
    pub calls: Calls,
    pub answer: u8,
}

/// The calls of one kind, in a table for the library's box in place and in one for it by value.
pub fn tables(meter: &mut Meter, kind: &Kind, cases: Vec<Case>) -> Vec<Table> {
    let mut rows = [Vec::new(), Vec::new()];
    for case in cases {
        assert_eq!(fair::end(&case.scene, &case.calls), Some(case.answer.into()), "{}", case.what);
        let Some([in_place, by_value, plain]) = times(meter, kind, &case) else { continue };
        for (rows, library) in rows.iter_mut().zip([in_place, by_value]) {
            rows.push(Row::timed(&case.what, Pair { library, plain }, kind.time));
        }
    }
    kind.titles.into_iter().zip(rows).map(|(title, rows)| Table::timed(title, rows)).collect()
}

/// The nanoseconds of one of the calls on every side, on the average of all.
fn times(meter: &mut Meter, kind: &Kind, case: &Case) -> Option<[f64; 3]> {
    let Case { what, scene, calls, .. } = case;
    let sides: [meter::Side; 3] = [
        (InPlace::NAME, &|bencher| rounds::<InPlace>(bencher, scene, calls)),
        (ByValue::NAME, &|bencher| rounds::<ByValue>(bencher, scene, calls)),
        (Plain::NAME, &|bencher| rounds::<Plain>(bencher, scene, calls)),
    ];
    let times = meter.in_turn(kind.name, what, sides)?;
    Some(times.map(|round| round / calls.number() as f64))
}

/// All the calls, again and again. Before each round the box is put back by a copy, on every side
/// alike: its record, and its ring's bytes if they are written over. Those of a ring with room are
/// not: new records lie behind them.
fn rounds<S: Side>(bencher: &mut Bencher, scene: &Scene, calls: &Calls) {
    let first = S::record(&scene.record);
    let mut record = first;
    let mut buffer = scene.buffer.clone();
    let at = scene.at;
    bencher.iter(|| {
        record = first;
        if scene.is_full() {
            buffer.copy_from_slice(&scene.buffer);
        }
        match calls {
            Calls::Bytes(bytes) => {
                for &byte in bytes {
                    black_box(S::byte(black_box(&mut record), &mut buffer, at, byte));
                }
            }
            Calls::Ticks(number) => {
                for _ in 0..*number {
                    black_box(S::tick(black_box(&mut record), &mut buffer, at));
                }
            }
        }
    });
}
