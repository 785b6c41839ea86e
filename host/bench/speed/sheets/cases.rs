//! The readouts and sheets that are measured.

use crate::random_sheets::record;
use independent::Record;
use rand::rngs::SmallRng;
use rand::{Rng, SeedableRng};

/// A readout and its sheet, of so many records. Where they are not good, the last record is at fault.
pub struct Case {
    pub what: &'static str,
    pub records: usize,
    pub readout: Vec<u8>,
    pub sheet: Vec<u8>,
    pub good: bool,
}

impl Case {
    /// The bytes of an output that has room for either.
    pub fn room(&self) -> usize {
        44 + 4 * self.readout.len()
    }
}

/// A ring of 4,096 bytes has room for 455 pulses.
pub fn all() -> Vec<Case> {
    let bad = Record::Trip { clock: 80_000, cause: 3 };
    vec![
        case("1 pulse", pulses(1)),
        case("16 mixed", mixed(16)),
        case("455 pulses", pulses(455)),
        case("455 mixed", mixed(455)),
        case("4550 pulses", pulses(4_550)),
        case("455 pulses, and a bad record", [&pulses(455)[..], &[bad]].concat()),
    ]
}

fn case(what: &'static str, records: Vec<Record>) -> Case {
    let readout: Vec<u8> = records.iter().flat_map(Record::bytes).collect();
    let lines: String = records.iter().map(line).collect();
    let sheet = format!("clock,kind,channel,width_us,current_ma,code\n{lines}").into_bytes();
    let good = independent::sheet::records(&readout)
        .is_some_and(|records| records.iter().all(independent::sheet::in_range));
    Case { what, records: records.len(), readout, sheet, good }
}

fn line(record: &Record) -> String {
    match record {
        Record::Answer { clock, ident, answer } => format!("{clock},answer,{ident},,,{answer}\n"),
        Record::Pulse { clock, channel, width, current } => {
            format!("{clock},pulse,{channel},{width},{current},\n")
        }
        Record::Trip { clock, cause } => format!("{clock},trip,,,,{cause}\n"),
    }
}

/// Pulses of a list, one each 1.5 ms, their settings as they come.
fn pulses(number: u32) -> Vec<Record> {
    let mut rng = SmallRng::seed_from_u64(1);
    let pulse = |place| Record::Pulse {
        clock: 70_000 + 15 * place,
        channel: (place % 8) as u8 + 1,
        width: rng.gen_range(10..=500),
        current: rng.gen_range(1..=127),
    };
    (0..number).map(pulse).collect()
}

/// Records of the three kinds in a random order, half of them pulses.
fn mixed(number: u32) -> Vec<Record> {
    let mut rng = SmallRng::seed_from_u64(2);
    (0..number).map(|place| record(&mut rng, 70_000 + 15 * place)).collect()
}
