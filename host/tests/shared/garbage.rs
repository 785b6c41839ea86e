//! What stands before and behind a packet.

use crate::agree::{self, refused};
use crate::device::{packet, Reading, LONGEST_DATA, WHOLE};
use crate::random_bytes::{bytes, damaged};
use crate::seeded::seeded;

/// "After any garbage that does not end in 81 the next whole packet is read as if it stood alone."
fn passed_over(garbage: &[u8], packet: &[u8]) {
    let alone = agree::read(packet, LONGEST_DATA);
    let used = if alone.used == 0 { 0 } else { garbage.len() + alone.used };
    let reading = agree::read(&[garbage, packet].concat(), LONGEST_DATA);
    assert_eq!(reading, Reading { used, ..alone }, "{garbage:02X?} {packet:02X?}");
}

#[test]
fn garbage_of_every_kind() {
    seeded(0..1_000, |rng| {
        let packet = packet(rng);
        for garbage in [
            &[][..],
            &[0x00],
            &[0x0F],
            &[0xF0],
            &[0xF0, 0xF0],
            &[0x0F, 0xF0],
            &[0x0F, 0x0F, 0x0F],
            &[0x81, 0xF0],
            &[0x81, 0x0F],
            &[0x81, 0x81, 0xF0],
            &[0x81, 0xF0, 0x0F],
            &[0xF0, 0x81, 0x0F],
            &[0xF0, 0x81, 0xF0, 0xF0],
            &WHOLE[1..],
            &WHOLE[..1],
            &WHOLE[..3],
            &WHOLE[..5],
            &WHOLE[..7],
            &[0x33; 100],
        ] {
            passed_over(garbage, &packet);
        }
    });
}

/// Garbage of two bytes, each of them any.
#[test]
fn any_two_bytes() {
    for first in 0..=255 {
        for second in (0..=255).filter(|&byte| byte != 0x81) {
            let garbage = [first, second];
            if garbage == [0xF0, 0x0F] {
                continue;
            }
            passed_over(&garbage, &WHOLE);
        }
    }
}

/// Garbage of every length to 50, with a mark at every place of it.
#[test]
fn marks_at_every_place() {
    for (length, mark) in (0..=50).flat_map(|length| [0xF0, 0x0F, 0x81].map(|mark| (length, mark)))
    {
        for place in 0..length {
            let mut garbage = vec![0x33; length];
            garbage[place] = mark;
            if garbage.ends_with(&[0x81]) {
                agree::read(&[&garbage[..], &WHOLE].concat(), LONGEST_DATA);
            } else {
                passed_over(&garbage, &WHOLE);
            }
        }
    }
}

/// Random garbage, if no packet is finished in it.
#[test]
fn random_garbage() {
    let (mut over, mut before, mut hidden) = (0, 0, 0);
    seeded(2_000..102_000, |rng| {
        let garbage = bytes(rng, 30);
        let packet = packet(rng);
        if agree::read(&garbage, LONGEST_DATA) != refused(1, 0) {
            // What is finished in it comes first, and the packet changes nothing.
            let alone = agree::read(&garbage, LONGEST_DATA);
            assert_eq!(agree::read(&[garbage, packet].concat(), LONGEST_DATA), alone);
            before += 1;
        } else if garbage.last() == Some(&0x81) {
            agree::read(&[garbage, packet].concat(), LONGEST_DATA);
            hidden += 1;
        } else {
            passed_over(&garbage, &packet);
            over += 1;
        }
    });
    assert!(over > 40_000 && before > 5_000 && hidden > 2_000, "{over} {before} {hidden}");
}

/// "An F0 after 81 opens no packet": the next one is read, if none was open.
#[test]
fn garbage_that_ends_in_81() {
    for garbage in [&[0x81][..], &[0x00, 0x81], &[0x81, 0x81], &[0x0F, 0x81], &[0x81, 0xF0, 0x81]] {
        let hidden = [garbage, &WHOLE].concat();
        assert_eq!(agree::read(&hidden, 0), refused(1, 0), "{garbage:02X?}");
        passed_over(&hidden, &WHOLE);
    }
    for open in [&WHOLE[..2], &WHOLE[..4]] {
        let bytes = [open, &WHOLE].concat();
        assert_eq!(agree::read(&bytes, 0), refused(3, bytes.len()), "{open:02X?}");
    }
}

/// What stands behind the stop changes nothing, on a refusal either.
#[test]
fn bytes_behind_the_stop() {
    seeded(200_000..230_000, |rng| {
        let packet = packet(rng);
        for mut bytes in [packet.clone(), damaged(rng, packet)] {
            let alone = agree::read(&bytes, LONGEST_DATA);
            if alone.answer == 1 {
                continue;
            }
            bytes.extend(crate::random_bytes::bytes(rng, 20));
            assert_eq!(agree::read(&bytes, LONGEST_DATA), alone);
        }
    });
}

/// The second of two is read behind the first, whether that is good or not.
#[test]
fn two_in_a_row() {
    seeded(300_000..330_000, |rng| {
        let (first, second) = (packet(rng), packet(rng));
        let both = [&first[..], &second].concat();
        let reading = agree::read(&both, LONGEST_DATA);
        assert_eq!(reading, agree::read(&first, LONGEST_DATA));
        assert_eq!(reading.used, first.len());
        assert_eq!(
            agree::read(&both[reading.used..], LONGEST_DATA),
            agree::read(&second, LONGEST_DATA)
        );
    });
}
