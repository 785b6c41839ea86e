//! The checksum against its definition, bit by bit, and the start value that the examples have.

use crate::papers::EXAMPLES;
use independent::rehamove3::checksum;
use rand::rngs::SmallRng;
use rand::{Rng, SeedableRng};

/// A register of 16 bits that starts so, and that each bit, highest first, goes through:
/// x¹⁶ + x¹² + x⁵ + 1 is taken off wherever the bit that leaves it and the one that comes in differ.
fn register(start: u16, bytes: &[u8]) -> u16 {
    let bits = bytes.iter().flat_map(|byte| (0..8).rev().map(move |bit| byte >> bit & 1));
    bits.fold(start, |register, bit| {
        let left = register >> 15;
        register << 1 ^ if left == u16::from(bit) { 0 } else { 0x1021 }
    })
}

#[test]
fn the_check_value() {
    assert_eq!(checksum(b"123456789"), 0x31C3);
    assert_eq!(register(0, b"123456789"), 0x31C3);
    // What others call CRC-CCITT too.
    assert_eq!(register(0xFFFF, b"123456789"), 0x29B1);
}

/// Of all start values 0 alone fits every example of section 7; for each of them by itself it is 0
/// alone as well.
#[test]
fn the_start_value() {
    for example in EXAMPLES {
        let told = u16::from_be_bytes([example[6] ^ 0x55, example[8] ^ 0x55]);
        let content = &example[9..example.len() - 1];
        let fitting: Vec<u16> =
            (0..=u16::MAX).filter(|start| register(*start, content) == told).collect();
        assert_eq!(fitting, [0], "{example:02X?}");
    }
}

#[test]
fn nothing_and_every_byte_and_pair() {
    assert_eq!(checksum(&[]), 0);
    assert_eq!([1, 2, 4, 0x80].map(|byte| checksum(&[byte])), [0x1021, 0x2042, 0x4084, 0x9188]);
    for first in 0..=255 {
        assert_eq!(checksum(&[first]), register(0, &[first]));
        for second in 0..=255 {
            assert_eq!(checksum(&[first, second]), register(0, &[first, second]));
        }
    }
}

#[test]
fn random_bytes_of_every_length() {
    let mut rng = SmallRng::seed_from_u64(0);
    for length in 0..=1_200 {
        for _ in 0..20 {
            let bytes: Vec<u8> = (0..length).map(|_| rng.gen()).collect();
            assert_eq!(checksum(&bytes), register(0, &bytes), "{bytes:02X?}");
        }
    }
}
