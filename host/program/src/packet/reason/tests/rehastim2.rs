//! Of the RehaStim2.

use super::random_packets::packet;
use super::{framed, the_first_failed_test_is_the_answer, the_layout_is_the_librarys};
use crate::packet::rehastim2::Rehastim2;
use crate::packet::stuffing::{stuffed, START, STOP};
use rand::rngs::SmallRng;
use rand::Rng;

#[test]
fn reasons() {
    let kinds = [
        "good",
        "no start",
        "no stop",
        "no checksum",
        "bare checksum",
        "checksum",
        "no length",
        "bare length",
        "length",
        "pair",
        "bare",
        "no packet number",
        "no command",
        "too much",
        "data",
        "value",
    ];
    the_first_failed_test_is_the_answer::<Rehastim2>(one, &kinds);
}

#[test]
fn the_layout() {
    the_layout_is_the_librarys::<Rehastim2>(one, &[1, 2, 3, 4, 10, 11, 30, 31, 36]);
}

fn one(rng: &mut SmallRng) -> Vec<u8> {
    match rng.gen_range(0..6) {
        0 => odd(rng),
        1 => {
            let (factor, current) = (rng.gen_range(0..8), rng.gen_range(20..80));
            framed::<Rehastim2>(&[rng.gen(), 36, factor, 0, current, 40])
        }
        _ => packet(rng),
    }
}

/// What stands between start and stop is whole, but has too little or too much in it, or is not
/// stuffed.
fn odd(rng: &mut SmallRng) -> Vec<u8> {
    match rng.gen_range(0..5) {
        0 => framed::<Rehastim2>(&[]),
        1 => framed::<Rehastim2>(&[rng.gen_range(0x10..0x80)]),
        2 => [&[START], &stuffed(0)[..], &[STOP]].concat(),
        3 => framed::<Rehastim2>(&vec![0x22; 2 + rng.gen_range(61..100)]),
        // The length is D4, stuffed to 81 81: what follows it neither starts nor stops a packet.
        _ => {
            let mut covered = vec![0x33; 0xD4];
            covered[0] = if rng.gen() { START } else { STOP };
            framed::<Rehastim2>(&covered)
        }
    }
}
