//! The fast ring against the slow one.

use crate::random::seeded;
use independent::plain::ring;
use independent::{Part, Record, Ring};
use rand::rngs::SmallRng;
use rand::Rng;

fn byte(rng: &mut SmallRng) -> u8 {
    if rng.gen() {
        rng.gen_range(0..=4)
    } else {
        rng.gen()
    }
}

fn record(rng: &mut SmallRng) -> Record {
    let clock = rng.gen();
    match rng.gen_range(0..3) {
        0 => Record::Answer { clock, ident: byte(rng), answer: byte(rng) },
        1 => Record::Pulse { clock, channel: byte(rng), width: rng.gen(), current: byte(rng) },
        _ => Record::Trip { clock, cause: byte(rng) },
    }
}

/// All three calls on a ring, whatever its bytes and numbers are. The pushed one is handed back.
fn agree(rng: &mut SmallRng, buffer: &mut Vec<u8>, at: Part, mine: Ring) -> Ring {
    assert_eq!(ring::ready(buffer, at, &mine), mine.ready(buffer, at));
    let room = if rng.gen() { mine.used } else { rng.gen_range(0..=100) }.min(5_000);
    let (mut slow, mut fast) = (vec![9; room], vec![9; room]);
    let told = mine.read_out(buffer, at, &mut slow);
    assert_eq!((ring::read_out(buffer, at, &mine, &mut fast), fast), (told, slow));
    let new = record(rng);
    let mut pushed = mine;
    let mut other = buffer.clone();
    let told = mine.push(&mut other, at, &new);
    assert_eq!(ring::push(buffer, at, &mut pushed, &new), told.map(|_| ()));
    assert_eq!((pushed, buffer), (told.unwrap_or(mine), &mut other));
    pushed
}

#[test]
fn histories() {
    seeded(0..4_000, |rng| {
        let capacity = if rng.gen_range(0..20) == 0 { 4_096 } else { rng.gen_range(16..=80) };
        let at = Part { offset: rng.gen_range(0..9), size: capacity };
        let mut buffer: Vec<u8> = (0..at.offset + capacity + 3).map(|_| rng.gen()).collect();
        let mut ring = Ring { capacity, start: rng.gen_range(0..capacity), used: 0 };
        for _ in 0..100 {
            ring = agree(rng, &mut buffer, at, ring);
            assert_eq!(ring::ready(&buffer, at, &ring), Ok(()));
        }
    });
}

#[test]
fn any_bytes() {
    seeded(10_000..110_000, |rng| {
        let capacity = rng.gen_range(16..=80);
        let at = Part { offset: rng.gen_range(0..9), size: capacity };
        let mut buffer: Vec<u8> = (0..at.offset + capacity + 3).map(|_| byte(rng)).collect();
        let (start, used) = (rng.gen_range(0..capacity), rng.gen_range(0..=capacity));
        let mut ring = Ring { capacity, start, used };
        for _ in 0..3 {
            ring = agree(rng, &mut buffer, at, ring);
        }
    });
}

#[test]
fn any_numbers() {
    seeded(200_000..400_000, |rng| {
        let number = |rng: &mut SmallRng| match rng.gen_range(0..6) {
            0 => rng.gen(),
            1 => [0, 15, 16, 17, 4_096, 4_097, usize::MAX][rng.gen_range(0..7)],
            _ => rng.gen_range(0..40),
        };
        let ring = Ring { capacity: number(rng), start: number(rng), used: number(rng) };
        let size = if rng.gen() { ring.capacity } else { number(rng) };
        let at = Part { offset: number(rng), size };
        let mut buffer: Vec<u8> = (0..rng.gen_range(0..90)).map(|_| byte(rng)).collect();
        agree(rng, &mut buffer, at, ring);
    });
}
