//! The comparison of the exports with the independent ring.
//!
//! Every call is compared in what it reports and in all bytes of the memory that it was lent and of
//! what lies around that.

use crate::lent::Lent;
use crate::placed::Placed;
use crate::random;
use independent::{Part, Record, Ring};
use rand::rngs::SmallRng;
use rand::Rng;
use yarrowbell::{calls, raw};

/// Asks both whether the ring is there, and hands back what they say.
pub fn ready(placed: &Placed) -> Result<(), u8> {
    let Placed { at, ring, buffer } = placed;
    let said = || format!("ring_ready, {placed:?}");
    let before = buffer.clone();
    let expected = ring.ready(buffer.slice(), *at);
    let answer = calls::ring_ready(buffer.slice(), part(*at), numbers(*ring));
    assert_eq!(answer, expected.err().unwrap_or(0), "{}", said());
    buffer.same(&before, said);
    expected
}

/// Pushes by both, leaves the ring pushed on, and hands back what they say.
pub fn push(placed: &mut Placed, new: Record) -> Result<Ring, u8> {
    let before = placed.clone();
    let said = || format!("push of {new:?}, {before:?}");
    let Placed { at, ring, mut buffer } = before.clone();
    let expected = ring.push(buffer.slice_mut(), at, &new);
    let report = match expected {
        Ok(left) => raw::Pushed { answer: 0, ring: numbers(left) },
        Err(answer) => raw::Pushed { answer: answer.into(), ring: numbers(ring) },
    };
    let lent = placed.buffer.slice_mut();
    let (at, ring) = (part(at), numbers(ring));
    let pushed = match new {
        Record::Answer { clock, ident, answer } => {
            calls::ring_push_answer(lent, at, ring, clock, ident, answer)
        }
        Record::Pulse { clock, channel, width, current } => {
            calls::ring_push_pulse(lent, at, ring, clock, channel, width, current)
        }
        Record::Trip { clock, cause } => calls::ring_push_trip(lent, at, ring, clock, cause),
    };
    assert_eq!(pushed, report, "{}", said());
    placed.buffer.same(&buffer, said);
    placed.ring = expected.unwrap_or(placed.ring);
    expected
}

/// Reads out by both into an output of `room` random bytes, and hands back what they copied.
pub fn read_out(rng: &mut SmallRng, placed: &Placed, room: usize) -> Result<Vec<u8>, u8> {
    let Placed { at, ring, buffer } = placed;
    let said = || format!("ring_read_out to {room} bytes, {placed:?}");
    let before = buffer.clone();
    let mut out = Lent::random(rng, room);
    let mut expected = out.clone();
    let answer = ring.read_out(buffer.slice(), *at, expected.slice_mut());
    let report = match answer {
        Ok(used) => raw::Readout { answer: 0, used: used as u32 },
        Err(answer) => raw::Readout { answer: answer.into(), used: 0 },
    };
    let readout = calls::ring_read_out(buffer.slice(), part(*at), numbers(*ring), out.slice_mut());
    assert_eq!(readout, report, "{}", said());
    out.same(&expected, || format!("the output of {}", said()));
    buffer.same(&before, || format!("the buffer of {}", said()));
    answer.map(|used| out.slice()[..used].to_vec())
}

/// Calls every export, each with the same ring, and hands back what `ready` says.
pub fn all(rng: &mut SmallRng, placed: &Placed) -> Result<(), u8> {
    for kind in random::KINDS {
        let new = random::record(rng, kind);
        let _ = push(&mut placed.clone(), new);
    }
    let used = placed.ring.used.min(5000);
    let longer = used + rng.gen_range(1..=20);
    for room in [0, used.saturating_sub(1), used, used + 1, longer] {
        let _ = read_out(rng, placed, room);
    }
    ready(placed)
}

/// Calls every export: all of them refuse with this answer.
pub fn all_refuse(rng: &mut SmallRng, placed: &Placed, answer: u8) {
    for kind in random::KINDS {
        let new = random::record(rng, kind);
        assert_eq!(push(&mut placed.clone(), new), Err(answer), "{new:?}, {placed:?}");
    }
    for room in [0, 16, placed.ring.used.min(5000)] {
        assert_eq!(read_out(rng, placed, room), Err(answer), "{room}, {placed:?}");
    }
    assert_eq!(ready(placed), Err(answer), "{placed:?}");
}

fn part(at: Part) -> raw::Part {
    raw::Part { offset: at.offset, size: at.size }
}

fn numbers(ring: Ring) -> raw::Ring {
    let [capacity, start, used] = [ring.capacity, ring.start, ring.used]
        .map(|number| number.try_into().expect("a ring's numbers have 4 bytes"));
    raw::Ring { capacity, start, used }
}
