//! Of the RehaMove3.

use super::random_bytes::{byte, bytes};
use super::random_pulses::packet;
use super::{framed, the_first_failed_test_is_the_answer, the_layout_is_the_librarys};
use crate::packet::rehamove3::Rehamove3;
use crate::packet::stuffing::{START, STOP, STUFFING};
use rand::rngs::SmallRng;
use rand::Rng;

/// The checksum stands behind the length: no length is missing where a checksum is there. Data is
/// not too much where the length is right.
#[test]
fn reasons() {
    let kinds = [
        "good",
        "no start",
        "no stop",
        "no checksum",
        "bare checksum",
        "checksum",
        "bare length",
        "length",
        "pair",
        "bare",
        "no packet number",
        "no command",
        "data",
        "value",
    ];
    the_first_failed_test_is_the_answer::<Rehamove3>(one, &kinds);
}

#[test]
fn the_layout() {
    the_layout_is_the_librarys::<Rehamove3>(one, &[0, 1, 2, 3, 4, 5, 30]);
}

fn one(rng: &mut SmallRng) -> Vec<u8> {
    match rng.gen_range(0..6) {
        0 => odd(rng),
        1 => framed::<Rehamove3>(&[rng.gen_range(0..0x0F) << 2, 30, 0]),
        _ => packet(rng),
    }
}

/// What stands between start and stop is whole, but has too little or too much in it, or is not
/// stuffed.
fn odd(rng: &mut SmallRng) -> Vec<u8> {
    match rng.gen_range(0..7) {
        0 => framed::<Rehamove3>(&[]),
        1 => framed::<Rehamove3>(&[rng.gen_range(0x10..0x80)]),
        // A packet of 1,195 to 1,205 bytes.
        2 => framed::<Rehamove3>(&vec![0x22; rng.gen_range(1_185..=1_195)]),
        // Too short for a checksum.
        3 => [&[START], &bytes(rng, 6)[..], &[STOP]].concat(),
        4 => framed::<Rehamove3>(&[8, 30, STUFFING, byte(rng, 2), 0]),
        // A byte of the length is not stuffed.
        5 => {
            let mut packet = framed::<Rehamove3>(&[8, 4]);
            packet[[1, 3][rng.gen_range(0..2)]] = rng.gen_range(0x10..0x80);
            packet
        }
        // The checksum ends in D4, stuffed to 81 81: what follows neither starts nor stops a packet.
        _ => {
            let mut covered = vec![if rng.gen() { START } else { STOP }, 0, 0];
            while framed::<Rehamove3>(&covered)[8] != 0x81 {
                covered[1] = rng.gen();
                covered[2] = rng.gen_range(0x10..0x80);
            }
            framed::<Rehamove3>(&covered)
        }
    }
}
