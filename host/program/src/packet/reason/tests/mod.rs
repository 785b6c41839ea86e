//! Reasons for what the library answers to random captures of each generation.

#[path = "../../../../../tests/shared/random_bytes.rs"]
mod random_bytes;
#[path = "../../../../../tests/shared/random_packets.rs"]
mod random_packets;
#[path = "../../../../../tests/shared/random_pulses.rs"]
mod random_pulses;

mod rehamove3;
mod rehastim2;

use super::*;
use crate::packet::always::pairs;
use crate::packet::checksum;
use crate::packet::content;
use crate::packet::field::Field;
use crate::packet::framing::Counted;
use crate::packet::generation::Generation;
use crate::packet::given::{plain, Given};
use crate::packet::reading::Reading;
use crate::packet::stuffing::{START, STOP};
use rand::rngs::SmallRng;
use rand::{Rng, SeedableRng};
use random_bytes::{bytes, damaged};
use std::collections::BTreeMap;
use yarrowbell::packets::Found;

/// A packet is given the answer of the first test that it fails, at a place within it, and one that
/// fails none is good. These kinds of reasons are met, and no others.
fn the_first_failed_test_is_the_answer<G: Generation>(
    one: fn(&mut SmallRng) -> Vec<u8>,
    kinds: &[&str],
) {
    let mut met: BTreeMap<&str, usize> = BTreeMap::new();
    for seed in 0..60_000 {
        let capture = capture(&mut SmallRng::seed_from_u64(seed), one);
        for found in G::packets(&capture) {
            let given = Given::new(&G::FRAMING, &capture, found.place.start);
            let reason = of::<G>(&given);
            let answer = found.packet.map_or_else(|why| why.answer(), |_| Answer::Done);
            let explained = reason.as_ref().map_or(Answer::Done, |reason| reason.answer());
            assert_eq!(explained, answer, "{capture:02X?} {reason:?}");
            lies_within::<G>(&given, &found, reason.as_ref());
            let kind = reason.as_ref().map_or("good", |reason| kind(&reason.what));
            *met.entry(kind).or_default() += 1;
            assert_eq!(Reading::<G>::of(&capture, found).reason, reason);
        }
    }
    for kind in kinds {
        let times = met.remove(kind).unwrap_or(0);
        assert!(times > 20, "{kind}: {times} times show little");
    }
    assert!(met.is_empty(), "{met:?}");
}

/// The library used the bytes up to this stop, and the reason's place lies between start and stop.
fn lies_within<G: Generation>(
    given: &Given,
    found: &Found<G::Packet>,
    reason: Option<&Reason<G::Field>>,
) {
    match (given.start, given.stop) {
        (Some(start), Some(stop)) => {
            assert_eq!(found.place.end, stop + 1);
            assert!(reason.is_none_or(|is| is.at.is_some_and(|at| (start..=stop).contains(&at))));
        }
        (start, _) => assert_eq!(reason.map(|is| is.at), Some(start)),
    }
}

/// What the program finds in the bytes of a good packet is what the library read there. All these
/// commands are met.
fn the_layout_is_the_librarys<G: Generation>(one: fn(&mut SmallRng) -> Vec<u8>, commands: &[u16]) {
    let mut read: BTreeMap<u16, usize> = BTreeMap::new();
    for seed in 0..20_000 {
        let capture = capture(&mut SmallRng::seed_from_u64(seed), one);
        for found in G::packets(&capture) {
            let Ok(packet) = found.packet else { continue };
            let plain = plain(&Given::new(&G::FRAMING, &capture, found.place.start).units());
            assert_eq!(plain[content::FRONT..], *found.data());
            let laid_out = content::values::<G>(&plain).into_iter().map(|placed| placed.value);
            let laid_out = laid_out.filter(|value| !value.field.is_reserved());
            let read_it = Reading::<G>::of(&capture, found).values();
            assert_eq!(laid_out.collect::<Vec<_>>(), read_it);
            *read.entry(G::read(&packet).command).or_default() += 1;
        }
    }
    for command in commands {
        assert!(read.get(command).is_some_and(|times| *times > 10), "{command}: {read:?}");
    }
}

/// Garbage and packets, many of them damaged.
fn capture(rng: &mut SmallRng, one: fn(&mut SmallRng) -> Vec<u8>) -> Vec<u8> {
    let mut capture = if rng.gen_ratio(1, 3) { bytes(rng, 6) } else { Vec::new() };
    for _ in 0..rng.gen_range(1..=3) {
        let one = one(rng);
        let spoilt = rng.gen_ratio(1, 2);
        capture.extend(if spoilt { damaged(rng, one) } else { one });
    }
    capture
}

/// A packet of these bytes, with its checksum and its length.
fn framed<G: Generation>(covered: &[u8]) -> Vec<u8> {
    let framing = G::FRAMING;
    let length = match framing.counted {
        Counted::Same => covered.len(),
        Counted::Whole => framing.front() + covered.len() + 1,
    };
    let checksum = checksum::of(covered, framing.polynomial, framing.checksum.size);
    let mut header = [(framing.checksum, checksum), (framing.length, length as u16)];
    header.sort_by_key(|(part, _)| part.behind_start);
    let header = header.iter().flat_map(|(part, number)| pairs(*number, part.size));
    [&[START], &header.collect::<Vec<u8>>()[..], covered, &[STOP]].concat()
}

fn kind<F>(what: &What<F>) -> &'static str {
    match what {
        What::NoStart => "no start",
        What::NoStop => "no stop",
        What::NoChecksum => "no checksum",
        What::BareChecksum(_) => "bare checksum",
        What::Checksum { .. } => "checksum",
        What::NoLength => "no length",
        What::BareLength(_) => "bare length",
        What::Length { .. } => "length",
        What::Pair(_) => "pair",
        What::Bare(_) => "bare",
        What::NoPacketNumber => "no packet number",
        What::NoCommand => "no command",
        What::TooMuch(_) => "too much",
        What::Data { .. } => "data",
        What::Value(_) => "value",
    }
}
