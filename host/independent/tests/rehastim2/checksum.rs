//! The checksum against its definition, bit by bit.

use independent::rehastim2::checksum;
use rand::rngs::SmallRng;
use rand::{Rng, SeedableRng};

/// The remainder of the bits, highest first and with 8 zeros behind them, divided by x⁸ + x² + x + 1.
fn remainder(bytes: &[u8]) -> u8 {
    let bits =
        bytes.iter().chain(&[0]).flat_map(|byte| (0..8).rev().map(move |bit| byte >> bit & 1));
    let divided = bits.fold(0u16, |left, bit| {
        let left = left << 1 | u16::from(bit);
        if left >= 0x100 {
            left ^ 0x107
        } else {
            left
        }
    });
    u8::try_from(divided).expect("a remainder has 8 bits")
}

#[test]
fn the_check_value() {
    assert_eq!(checksum(b"123456789"), 0xF4);
    assert_eq!(remainder(b"123456789"), 0xF4);
}

#[test]
fn nothing_and_every_byte_and_pair() {
    assert_eq!(checksum(&[]), 0);
    assert_eq!([1, 2, 4, 0x80].map(|byte| checksum(&[byte])), [0x07, 0x0E, 0x1C, 0x89]);
    for first in 0..=255 {
        assert_eq!(checksum(&[first]), remainder(&[first]));
        for second in 0..=255 {
            assert_eq!(checksum(&[first, second]), remainder(&[first, second]));
        }
    }
}

#[test]
fn random_bytes_of_every_length() {
    let mut rng = SmallRng::seed_from_u64(0);
    for length in 0..300 {
        for _ in 0..100 {
            let bytes: Vec<u8> = (0..length).map(|_| rng.gen()).collect();
            assert_eq!(checksum(&bytes), remainder(&bytes), "{bytes:02X?}");
        }
    }
}
