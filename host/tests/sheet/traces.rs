//! The trace of a unit, whatever was sent to it, is written as a sheet and read back.

use crate::agree;
use crate::seeded::seeded;
use independent::sheet::records;
use independent::Record;
use soak::sessions::session;
use yarrowbell::Guard;

#[test]
fn every_trace_is_a_sheet() {
    let mut met = [0; 3];
    seeded(0..400, |rng| {
        let session = session(rng);
        let mut guard = Guard::new(session.profile, session.capacity).expect("both are good");
        for &(clock, byte) in &session.sent {
            while guard.clock() < clock {
                guard.tick().expect("the clock is far from its end");
            }
            guard.byte(byte);
        }
        let trace = guard.trace();
        let sheet = agree::write(&trace).expect("a unit writes what is in range");
        assert_eq!(agree::read(&sheet).as_ref(), Ok(&trace));
        for record in records(&trace).expect("a trace splits") {
            met[match record {
                Record::Answer { .. } => 0,
                Record::Pulse { .. } => 1,
                Record::Trip { .. } => 2,
            }] += 1;
        }
    });
    assert!(met.iter().all(|&records| records > 100), "{met:?}");
}
