//! Where a packet starts and stops.

use independent::rehastim2::{compose, read, Command, Reading};

/// A Watchdog of packet number 0, alone 8 bytes.
const WATCHDOG: [u8; 8] = [0xF0, 0x81, 0x49, 0x81, 0x57, 0, 4, 0x0F];

/// What is told of the Watchdog with this many bytes used.
fn watchdog(used: usize) -> Reading {
    Reading { used, command: Some(Command::Watchdog), ..Reading::default() }
}

fn refused(answer: u8, used: usize) -> Reading {
    Reading { answer, used, ..Reading::default() }
}

/// "After any garbage that does not end in 81 the next whole packet is read as if it stood alone."
#[test]
fn garbage_before_the_packet() {
    for garbage in [
        &[][..],
        &[0x00],
        &[0x0F],
        &[0x0F, 0x0F],
        &[0xF0],
        &[0xF0, 0xF0],
        &[0xF0, 0x81, 0x49],
        &[0xF0, 0x81, 0x49, 0x81, 0x57, 0, 4],
        &[0x81, 0xF0],
        &[0x81, 0xF0, 0x0F],
        &[0x81, 0x0F],
        &[0xF0, 0x81, 0x0F],
        &[0x81, 0x81, 0xF0],
    ] {
        let bytes = [garbage, &WATCHDOG].concat();
        assert_eq!(read(&bytes, 0), watchdog(bytes.len()), "{garbage:02X?}");
    }
}

/// "An F0 after 81 opens no packet", whatever that 81 is part of: the next one does.
#[test]
fn garbage_that_ends_in_81() {
    for garbage in [&[0x81][..], &[0x00, 0x81], &[0x81, 0x81], &[0x0F, 0x81]] {
        let hidden = [garbage, &WATCHDOG].concat();
        assert_eq!(read(&hidden, 0), refused(1, 0), "{garbage:02X?}");
        let twice = [&hidden[..], &WATCHDOG].concat();
        assert_eq!(read(&twice, 0), watchdog(twice.len()), "{garbage:02X?}");
    }
    // It is within the packet that is open, and the stop is that one's.
    for open in [&[0xF0, 0x81][..], &[0xF0, 0x81, 0x49, 0x81]] {
        let bytes = [open, &WATCHDOG].concat();
        assert_eq!(read(&bytes, 0), refused(3, bytes.len()), "{open:02X?}");
    }
}

#[test]
fn the_first_of_two() {
    let bytes = [WATCHDOG, WATCHDOG].concat();
    assert_eq!(read(&bytes, 0), watchdog(8));
    assert_eq!(read(&bytes[8..], 0), watchdog(8));
    assert_eq!(read(&bytes[1..], 0), watchdog(15));
}

/// "A packet not finished", however long it is.
#[test]
fn without_a_stop() {
    assert_eq!(read(&[], 0), refused(1, 0));
    for length in 0..WATCHDOG.len() {
        assert_eq!(read(&WATCHDOG[..length], 0), refused(1, 0));
    }
    let long = [&WATCHDOG[..7], &[0; 5_000]].concat();
    assert_eq!(read(&long, 0), refused(1, 0));
    assert_eq!(read(&[&long[..], &[0x81, 0x0F]].concat(), 0), refused(1, 0));
    assert_eq!(read(&[&long[..], &[0x0F]].concat(), 0), refused(3, 5_008));
}

/// "Any other opens a new one": what was open is dropped without an answer.
#[test]
fn a_start_in_an_open_packet() {
    for place in 1..=7 {
        let bytes = [&WATCHDOG[..place], &WATCHDOG].concat();
        let expected = match place {
            // The start stands behind a stuffing byte.
            2 | 4 => refused(3, bytes.len()),
            _ => watchdog(bytes.len()),
        };
        assert_eq!(read(&bytes, 0), expected, "{place}");
    }
}

/// 90 stuffed bytes: the length is stuffed to 81 0F, which is no stop.
#[test]
fn a_length_that_looks_like_a_stop() {
    let data = [&[0xF0; 28][..], &[0x33; 32]].concat();
    let bytes = compose(1, 60, &data);
    assert_eq!(bytes[3..5], [0x81, 0x0F]);
    let command = Some(Command::Other { number: 60 });
    assert_eq!(read(&bytes, 60), Reading { answer: 0, used: 96, packet: 1, command, data });
}
