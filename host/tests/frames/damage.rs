//! Bytes that are no good frame, or not at once seen to be one.

use crate::{agree, random};
use independent::{Command, Kind};
use rand::rngs::SmallRng;
use rand::Rng;

/// A good frame of each kind, don't-care bits set, with its kind and a count of its list.
fn good_frames(rng: &mut SmallRng) -> [(Kind, usize, Vec<u8>); 4] {
    random::KINDS.map(|kind| {
        let count = rng.gen_range(1..=8);
        let frame = random::framed(&random::good(rng, kind, count), count);
        (kind, count, random::stirred(rng, kind, count, &frame))
    })
}

#[test]
fn every_first_byte_before_random_ones() {
    random::seeded(0..500, |rng| {
        for first in 0..=255 {
            let mut bytes = vec![first];
            bytes.extend(random::bytes(rng, 39));
            let found = agree::read(&bytes, rng.gen_range(1..=8));
            assert_eq!(found == Err(2), first < 0x80);
        }
    });
}

/// One body has one right check: of the first bytes that differ in Check alone, all but one are
/// answered 3.
#[test]
fn one_right_check_for_each_body() {
    random::seeded(1_000..21_000, |rng| {
        for kind in random::KINDS {
            let count = rng.gen_range(1..=8);
            let length = independent::free_bits(kind, count).len();
            let mut bytes: Vec<u8> = (0..length).map(|_| rng.gen_range(0..0x80)).collect();
            let kept = if kind == Kind::Init { 0x80 | bytes[0] & 3 } else { 0x80 };
            let (checks, step) = if kind == Kind::Init { (8, 4) } else { (32, 1) };
            let right = (0..checks).filter(|check| {
                bytes[0] = kept + 32 * (kind as u8) + step * check;
                agree::read(&bytes, count) != Err(3)
            });
            assert_eq!(right.count(), 1);
        }
    });
}

#[test]
fn every_truncation() {
    random::seeded(2_000..22_000, |rng| {
        for (_, count, frame) in good_frames(rng) {
            for length in 0..frame.len() {
                assert_eq!(agree::read(&frame[..length], count), Err(1));
            }
            assert!(agree::read(&frame, count).is_ok());
        }
    });
}

/// Too short is told before a high byte in what there is.
#[test]
fn truncation_after_a_high_byte() {
    random::seeded(3_000..13_000, |rng| {
        for (_, count, mut frame) in good_frames(rng) {
            for place in 1..frame.len() {
                frame[place] |= 0x80;
                for length in 1..frame.len() {
                    assert_eq!(agree::read(&frame[..length], count), Err(1));
                }
                frame[place] &= 0x7F;
            }
        }
    });
}

/// Every byte replaced by every other. Behind the first byte, a change leaves what is read as it
/// was exactly if it is one of don't-care bits alone.
#[test]
fn every_byte_replaced() {
    random::seeded(4_000..4_200, |rng| {
        for (kind, count, frame) in good_frames(rng) {
            let free = independent::free_bits(kind, count);
            let good = agree::read(&frame, count);
            for place in 0..frame.len() {
                let mut bytes = frame.clone();
                for byte in 0..=255 {
                    bytes[place] = byte;
                    let found = agree::read(&bytes, count);
                    if place > 0 {
                        assert_eq!(found == Err(17), byte >= 0x80);
                        assert_eq!(found == good, (byte ^ frame[place]) & !free[place] == 0);
                    }
                }
            }
        }
    });
}

/// A high byte before the frame's end is told before a wrong check and before a value.
#[test]
fn high_bytes_at_each_place() {
    random::seeded(5_000..25_000, |rng| {
        for (_, count, frame) in good_frames(rng) {
            for place in 1..frame.len() {
                let high = rng.gen_range(0x80..=0xFF);
                let mut longer = frame.clone();
                longer.insert(place, high);
                assert_eq!(agree::read(&longer, count), Err(17));
                let mut spoilt = frame.clone();
                spoilt[0] ^= 1;
                spoilt[place] |= 0x80;
                assert_eq!(agree::read(&spoilt, count), Err(17));
            }
            let mut opened = vec![rng.gen_range(0x80..=0xFF)];
            opened.extend(&frame);
            let _ = agree::read(&opened, count);
        }
    });
}

/// A wrong check is told before a value that is not good.
#[test]
fn wrong_check_before_value() {
    random::seeded(6_000..106_000, |rng| {
        let command = Command::Init(random::any_init(rng));
        let wrong = (independent::check(&command) + rng.gen_range(1..8)) % 8;
        assert_eq!(agree::read(&independent::compose(&command, 1, wrong), 1), Err(3));
        let count = rng.gen_range(1..=8);
        let mut settings = random::good_update(rng, count);
        settings[rng.gen_range(0..count)].pulse_width = rng.gen_range(501..512);
        let command = Command::Update(settings);
        let wrong = (independent::check(&command) + rng.gen_range(1..32)) % 32;
        assert_eq!(agree::read(&independent::compose(&command, count, wrong), count), Err(3));
    });
}

/// What stands behind a frame changes nothing, on a refusal either.
#[test]
fn bytes_after_the_frame() {
    random::seeded(7_000..107_000, |rng| {
        for (_, count, mut frame) in good_frames(rng) {
            if rng.gen() {
                let place = rng.gen_range(0..frame.len());
                let kept = if place == 0 { 0xE0 } else { 0 };
                frame[place] = frame[place] & kept | rng.gen::<u8>() & !kept;
            }
            let found = agree::read(&frame, count);
            let mut longer = frame.clone();
            longer.extend(random::bytes(rng, 40));
            assert_eq!(agree::read(&longer, count), found);
        }
    });
}

#[test]
fn garbage() {
    random::seeded(200_000..700_000, |rng| {
        let bytes = random::bytes(rng, 40);
        let _ = agree::read(&bytes, rng.gen_range(0..=9));
    });
}

/// Garbage whose first byte is high and whose others are low: any refusal is about Check or values.
#[test]
fn garbage_of_the_form_of_a_frame() {
    random::seeded(700_000..1_700_000, |rng| {
        let mut bytes: Vec<u8> = (0..25).map(|_| rng.gen_range(0..0x80)).collect();
        bytes[0] |= 0x80;
        match agree::read(&bytes, rng.gen_range(1..=8)) {
            Ok(_) | Err(3 | 4) => {}
            Err(other) => panic!("answered {other}"),
        }
    });
}
