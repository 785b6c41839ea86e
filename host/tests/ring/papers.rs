//! What document 01 has in its list.

use crate::{agree, random};
use independent::{Part, Record, Ring};

/// "Same, capacity 32, after clock 145 the readout is 27 bytes, whole": the records of case 12 up
/// to then, the two of the commands and the three of their pulses.
#[test]
fn case_13() {
    let answer = |clock, ident| Record::Answer { clock, ident, answer: 0 };
    let pulse = |clock, channel, width, current| Record::Pulse { clock, channel, width, current };
    let pushes = [
        (answer(0, 0), Ring { capacity: 32, start: 0, used: 7 }),
        (answer(5, 1), Ring { capacity: 32, start: 0, used: 14 }),
        (pulse(100, 1, 200, 40), Ring { capacity: 32, start: 0, used: 23 }),
        (pulse(115, 3, 300, 30), Ring { capacity: 32, start: 0, used: 32 }),
        (pulse(145, 3, 300, 30), Ring { capacity: 32, start: 14, used: 27 }),
    ];
    let bytes = vec![
        0x02, 0x64, 0x00, 0x00, 0x00, 0x01, 0xC8, 0x00, 0x28, 0x02, 0x73, 0x00, 0x00, 0x00, 0x03,
        0x2C, 0x01, 0x1E, 0x02, 0x91, 0x00, 0x00, 0x00, 0x03, 0x2C, 0x01, 0x1E,
    ];
    random::seeded(0..1_000, |rng| {
        let mut placed = random::empty(rng, 32, 0);
        for (new, left) in pushes {
            assert_eq!(agree::push(&mut placed, new), Ok(left));
        }
        assert_eq!(agree::ready(&placed), Ok(()));
        assert_eq!(agree::read_out(rng, &placed, 26), Err(16));
        assert_eq!(agree::read_out(rng, &placed, 27), Ok(bytes.clone()));
        assert_eq!(agree::read_out(rng, &placed, 28), Ok(bytes.clone()));
    });
}

/// "Capacity 15 refused, 16 taken", as far as it is the ring's.
#[test]
fn case_16() {
    random::seeded(1_000..1_100, |rng| {
        let mut placed = random::empty(rng, 16, 0);
        assert_eq!(agree::all(rng, &placed), Ok(()));
        placed.ring.capacity = 15;
        agree::all_refuse(rng, &placed, 12);
        placed.at = Part { size: 15, ..placed.at };
        agree::all_refuse(rng, &placed, 12);
    });
}
