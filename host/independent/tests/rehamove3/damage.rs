//! The examples with one byte damaged.

use crate::papers::EXAMPLES;
use crate::refused::refused;
use independent::rehamove3::{read, Reading};

/// What the reader is to tell of an example with this byte at this place.
fn expected(example: &[u8], place: usize, byte: u8) -> Reading {
    let length = example.len();
    let behind_stuffing = place > 0 && example[place - 1] == 0x81;
    match (place, byte) {
        (0, _) => refused(1, 0),
        (_, _) if place == length - 1 => refused(1, 0),
        // The stop is none.
        (_, 0x81) if place == length - 2 => refused(1, 0),
        // What is left of the packet is open.
        (_, 0xF0) if !behind_stuffing => refused(3, length),
        // An Ll_init covers zeros alone, and its checksum is right of any number of them.
        (9.., 0x0F) if example == EXAMPLES[0] => refused(4, place + 1),
        (_, 0x0F) if !behind_stuffing => refused(3, place + 1),
        (1..=4, _) => refused(4, length),
        _ => refused(3, length),
    }
}

#[test]
fn every_byte_replaced() {
    for example in EXAMPLES {
        for place in 0..example.len() {
            for byte in (0..=255).filter(|byte| *byte != example[place]) {
                let mut bytes = example.to_vec();
                bytes[place] = byte;
                assert_eq!(read(&bytes, 100), expected(example, place, byte), "{bytes:02X?}");
            }
        }
    }
}

#[test]
fn every_byte_left_out() {
    for example in EXAMPLES {
        for place in 1..example.len() - 1 {
            let mut bytes = example.to_vec();
            bytes.remove(place);
            let reading = read(&bytes, 100);
            assert_eq!((reading.answer == 0, reading.command), (false, None), "{bytes:02X?}");
        }
    }
}

/// Two bits in the bytes that the checksum covers.
#[test]
fn every_two_bits_turned() {
    let mut answers = [0; 17];
    for example in EXAMPLES {
        let bits = 8 * 9..8 * (example.len() - 1);
        for first in bits.clone() {
            for second in first + 1..bits.end {
                let mut bytes = example.to_vec();
                for bit in [first, second] {
                    bytes[bit / 8] ^= 0x80 >> (bit % 8);
                }
                let answer = read(&bytes, 100).answer;
                answers[usize::from(answer)] += 1;
                assert!([1, 3].contains(&answer), "{bytes:02X?}");
            }
        }
    }
    assert!(answers[3] > 40_000, "{answers:?}");
}
