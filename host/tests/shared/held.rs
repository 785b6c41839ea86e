//! A readout that the library takes apart.

use independent::Record;
use yarrowbell::{records, Body};

/// The library finds these records in the readout and no others, each where its bytes begin.
pub fn held(readout: &[u8], expected: &[Record]) {
    let found = records(readout).unwrap_or_else(|why| panic!("{why}: {readout:02X?}"));
    assert_eq!(found.iter().map(independently).collect::<Vec<_>>(), expected);
    let mut at = 0;
    for (found, expected) in found.iter().zip(expected) {
        let length = expected.bytes().len();
        assert_eq!((found.at, found.body.length()), (at, length), "{found:?}");
        at += length;
    }
}

/// A record as the independent ring has it.
fn independently(record: &yarrowbell::Record) -> Record {
    let clock = record.clock;
    match record.body {
        Body::Answer { ident, answer } => Record::Answer { clock, ident, answer },
        Body::Pulse { channel, width, current } => Record::Pulse { clock, channel, width, current },
        Body::Trip { cause } => Record::Trip { clock, cause },
    }
}
