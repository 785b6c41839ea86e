//! The bytes of the records, written out.

use crate::{agree, random};
use independent::Record;

/// Pushed on an empty ring at each start, the record is the whole readout.
fn has_bytes(new: Record, bytes: &[u8]) {
    random::seeded(0..8, |rng| {
        for start in 0..16 {
            let mut placed = random::empty(rng, 16, start);
            let left = independent::Ring { used: bytes.len(), ..placed.ring };
            assert_eq!(agree::push(&mut placed, new), Ok(left), "{new:?}");
            assert_eq!(agree::read_out(rng, &placed, bytes.len()), Ok(bytes.to_vec()), "{new:?}");
        }
    });
}

#[test]
fn answers() {
    let bytes = [0x01, 0x44, 0x33, 0x22, 0x11, 0x55, 0x66];
    has_bytes(Record::Answer { clock: 0x1122_3344, ident: 0x55, answer: 0x66 }, &bytes);
    has_bytes(Record::Answer { clock: 0, ident: 0, answer: 0 }, &[1, 0, 0, 0, 0, 0, 0]);
    let bytes = [1, 255, 255, 255, 255, 255, 255];
    has_bytes(Record::Answer { clock: u32::MAX, ident: 255, answer: 255 }, &bytes);
}

#[test]
fn pulses() {
    let pulse = |clock, channel, width, current| Record::Pulse { clock, channel, width, current };
    let bytes = [0x02, 0x44, 0x33, 0x22, 0x11, 0x55, 0x77, 0x66, 0x88];
    has_bytes(pulse(0x1122_3344, 0x55, 0x6677, 0x88), &bytes);
    has_bytes(pulse(0, 0, 0, 0), &[2, 0, 0, 0, 0, 0, 0, 0, 0]);
    let bytes = [2, 255, 255, 255, 255, 255, 255, 255, 255];
    has_bytes(pulse(u32::MAX, 255, u16::MAX, 255), &bytes);
    has_bytes(pulse(145, 8, 500, 127), &[2, 145, 0, 0, 0, 8, 0xF4, 0x01, 127]);
}

#[test]
fn trips() {
    let bytes = [0x03, 0x44, 0x33, 0x22, 0x11, 0x55];
    has_bytes(Record::Trip { clock: 0x1122_3344, cause: 0x55 }, &bytes);
    has_bytes(Record::Trip { clock: 0, cause: 0 }, &[3, 0, 0, 0, 0, 0]);
    has_bytes(Record::Trip { clock: u32::MAX, cause: 255 }, &[3, 255, 255, 255, 255, 255]);
}

/// Every value of every byte of a body.
#[test]
fn every_byte_of_a_body() {
    for byte in 0..=255 {
        for place in 0..4 {
            let clock = u32::from(byte) << (8 * place);
            let mut bytes = [0; 9];
            bytes[1 + place] = byte;
            let kind = |kind: u8, length: usize| [&[kind], &bytes[1..length]].concat();
            has_bytes(Record::Answer { clock, ident: 0, answer: 0 }, &kind(1, 7));
            has_bytes(Record::Pulse { clock, channel: 0, width: 0, current: 0 }, &kind(2, 9));
            has_bytes(Record::Trip { clock, cause: 0 }, &kind(3, 6));
        }
        let wide = u16::from(byte);
        let pulse = |channel, width, current| Record::Pulse { clock: 0, channel, width, current };
        has_bytes(Record::Answer { clock: 0, ident: byte, answer: 0 }, &[1, 0, 0, 0, 0, byte, 0]);
        has_bytes(Record::Answer { clock: 0, ident: 0, answer: byte }, &[1, 0, 0, 0, 0, 0, byte]);
        has_bytes(pulse(byte, 0, 0), &[2, 0, 0, 0, 0, byte, 0, 0, 0]);
        has_bytes(pulse(0, wide, 0), &[2, 0, 0, 0, 0, 0, byte, 0, 0]);
        has_bytes(pulse(0, wide << 8, 0), &[2, 0, 0, 0, 0, 0, 0, byte, 0]);
        has_bytes(pulse(0, 0, byte), &[2, 0, 0, 0, 0, 0, 0, 0, byte]);
        has_bytes(Record::Trip { clock: 0, cause: byte }, &[3, 0, 0, 0, 0, byte]);
    }
}
