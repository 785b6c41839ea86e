//! Where a packet starts and stops.

use crate::refused::refused;
use independent::rehamove3::{compose, read, Command, Reading};

/// An Ll_stop of packet number 2 (section 7.1), alone 12 bytes.
const STOP: [u8; 12] = [0xF0, 0x81, 0x55, 0x81, 0x59, 0x81, 0x9C, 0x81, 0x78, 0x08, 0x04, 0x0F];

/// What is told of it with this many bytes used.
fn stop(used: usize) -> Reading {
    Reading { used, packet: 2, command: Some(Command::LlStop), ..Reading::default() }
}

/// "After any garbage that does not end in 81 the next whole packet is read as if it stood alone."
#[test]
fn garbage_before_the_packet() {
    for garbage in [
        &[][..],
        &[0x00],
        &[0x0F, 0x0F],
        &[0xF0],
        &[0xF0, 0x81, 0x55],
        &STOP[..11],
        &[0x81, 0xF0],
        &[0x81, 0xF0, 0x0F],
        &[0xF0, 0x81, 0x0F],
        &[0x81, 0x81, 0xF0],
        &[0x33; 2_000],
    ] {
        let bytes = [garbage, &STOP].concat();
        assert_eq!(read(&bytes, 0), stop(bytes.len()), "{garbage:02X?}");
    }
}

/// "An F0 after 81 opens no packet": the next one does.
#[test]
fn garbage_that_ends_in_81() {
    for garbage in [&[0x81][..], &[0x00, 0x81], &[0x81, 0x81], &[0x0F, 0x81]] {
        let hidden = [garbage, &STOP].concat();
        assert_eq!(read(&hidden, 0), refused(1, 0), "{garbage:02X?}");
        let twice = [&hidden[..], &STOP].concat();
        assert_eq!(read(&twice, 0), stop(twice.len()), "{garbage:02X?}");
    }
}

#[test]
fn the_first_of_two() {
    let bytes = [STOP, STOP].concat();
    assert_eq!(read(&bytes, 0), stop(12));
    assert_eq!(read(&bytes[12..], 0), stop(12));
    assert_eq!(read(&bytes[1..], 0), stop(23));
}

#[test]
fn without_a_stop() {
    for length in 0..STOP.len() {
        assert_eq!(read(&STOP[..length], 0), refused(1, 0));
    }
    let long = [&STOP[..11], &[0; 5_000]].concat();
    assert_eq!(read(&long, 0), refused(1, 0));
    assert_eq!(read(&[&long[..], &[0x81, 0x0F]].concat(), 0), refused(1, 0));
    assert_eq!(read(&[&long[..], &[0x0F]].concat(), 0), refused(3, 5_012));
}

#[test]
fn a_start_in_an_open_packet() {
    for place in 1..=11 {
        let bytes = [&STOP[..place], &STOP].concat();
        let expected = match place {
            // The start stands behind a stuffing byte.
            2 | 4 | 6 | 8 => refused(3, bytes.len()),
            _ => stop(bytes.len()),
        };
        assert_eq!(read(&bytes, 0), expected, "{place}");
    }
}

/// "A checksum of A5 is stuffed to 81 F0 and one of 5A to 81 0F", one of D4 to 81 81: each of these as
/// either byte of a checksum, and as the low byte of a length.
#[test]
fn headers_that_look_like_a_start_or_a_stop() {
    let mut met = [[0; 3]; 3];
    for data in 0..=u16::MAX {
        let data = data.to_be_bytes();
        let bytes = compose(1, 60, &data);
        let reading = read(&bytes, 2);
        assert_eq!((reading.answer, reading.used, &reading.data[..]), (0, bytes.len(), &data[..]));
        for (place, met) in [6, 8].into_iter().zip(&mut met) {
            let looks = [0xF0, 0x0F, 0x81].map(|mark| u32::from(bytes[place] == mark));
            met.iter_mut().zip(looks).for_each(|(met, looks)| *met += looks);
        }
    }
    for (place, length) in [0xA5, 0x5A, 0xD4].into_iter().enumerate() {
        for more in [0, 0x100, 0x200, 0x300] {
            let bytes = compose(1, 60, &vec![0x33; length + more - 12]);
            assert_eq!(bytes[4], [0xF0, 0x0F, 0x81][place]);
            let reading = read(&bytes, 1_188);
            assert_eq!((reading.answer, reading.used), (0, length + more));
            met[2][place] += 1;
        }
    }
    assert!(met.as_flattened().iter().all(|&times| times > 3), "{met:?}");
}
