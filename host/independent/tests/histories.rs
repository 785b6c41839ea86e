//! The ring by its records, by its bytes and by the tail of all records: every short history.

use independent::{tail, Part, Record, Ring, Trace};

/// The record of each kind, with values that no other number gives.
fn record(kind: usize, number: u8) -> Record {
    let clock = u32::from_le_bytes([number, 2, 3, 255]);
    match kind {
        0 => Record::Answer { clock, ident: number, answer: 1 },
        1 => Record::Pulse { clock, channel: 1, width: 0x0302, current: number },
        _ => Record::Trip { clock, cause: number },
    }
}

const KINDS: usize = 3;
const PUSHES: u32 = 7;

/// Every history of seven records, by the digits of its number.
fn histories() -> impl Iterator<Item = Vec<Record>> {
    (0..KINDS.pow(PUSHES)).map(|history| {
        let kind = |push: u32| history / KINDS.pow(push) % KINDS;
        (0..PUSHES).map(|push| record(kind(push), push as u8)).collect()
    })
}

/// "01: clock 4, Ident 1, answer 1", "02: clock 4, channel 1, width 2, current 1", "03: clock 4,
/// cause 1", each behind one byte of kind.
#[test]
fn lengths() {
    assert_eq!([0, 1, 2].map(|kind| record(kind, 0).bytes().len()), [7, 9, 6]);
}

#[test]
fn all_agree() {
    for capacity in 16..=40 {
        let at = Part { offset: 3, size: capacity };
        let first = capacity - 5;
        for all in histories() {
            let mut buffer: Vec<u8> = (100..).take(3 + capacity + 2).collect();
            let mut trace = Trace::new(buffer.clone(), at, first);
            let mut ring = Ring { capacity, start: first, used: 0 };
            for (count, new) in (1..).zip(&all) {
                trace.push(*new);
                ring = ring.push(&mut buffer, at, new).expect("the ring is there");
                assert_eq!((ring, &buffer[..]), (trace.ring(), trace.buffer()));
                let longest: Vec<u8> =
                    tail(&all[..count], capacity).iter().flat_map(Record::bytes).collect();
                assert_eq!(trace.bytes(), longest);
                let mut out = vec![0; longest.len()];
                assert_eq!(ring.read_out(&buffer, at, &mut out), Ok(longest.len()));
                assert_eq!(out, longest);
            }
        }
    }
}
