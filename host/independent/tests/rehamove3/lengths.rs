//! "The packet length (2 Byte) is the full length of the packet including the start and the stop byte
//! [..] The maximum packet length including stuffing is 1200 Bytes."

use crate::refused::refused;
use independent::rehamove3::{compose, enclose, read, Command, Reading};

/// Another command of so many bytes on the line, none of them stuffed.
fn plain(length: usize) -> (Vec<u8>, Vec<u8>) {
    let data = vec![0x33; length - 12];
    (compose(5, 60, &data), data)
}

/// The same with as many stuffed as can be.
fn stuffed(length: usize) -> (Vec<u8>, Vec<u8>) {
    let size = length - 12;
    let data = [&vec![0xF0; size / 2][..], &vec![0x33; size % 2]].concat();
    (compose(5, 60, &data), data)
}

#[test]
fn every_length_told() {
    for length in 0..=u16::MAX {
        let mut bytes = compose(2, 4, &[]);
        let [high, low] = length.to_be_bytes();
        (bytes[2], bytes[4]) = (high ^ 0x55, low ^ 0x55);
        let found = read(&bytes, 0);
        match length {
            12 => assert_eq!(found.command, Some(Command::LlStop)),
            _ => assert_eq!(found, refused(4, 12), "{length}"),
        }
    }
}

#[test]
fn every_length_there_is() {
    for length in 12..=1_400 {
        for (bytes, data) in [plain(length), stuffed(length)] {
            assert_eq!(bytes.len(), length);
            let found = read(&bytes, 1_400);
            if length <= 1_200 {
                let command = Some(Command::Other { number: 60 });
                let expected = Reading { used: length, packet: 5, command, data, ..found.clone() };
                assert_eq!((found.answer, found.charge), (0, 0), "{length}");
                assert_eq!(found, expected, "{length}");
            } else {
                assert_eq!(found, refused(4, length));
            }
        }
    }
}

/// A wrong checksum comes first.
#[test]
fn too_long_with_a_wrong_checksum() {
    for length in [1_199, 1_200, 1_201, 1_202, 2_000, 70_000] {
        let (mut bytes, _) = plain(length);
        bytes[8] ^= 1;
        assert_eq!(read(&bytes, 0), refused(3, length));
    }
}

/// 65,536 bytes do not pass for none.
#[test]
fn a_length_past_its_bytes() {
    for length in [65_536, 65_536 + 12, 65_536 + 13, 65_536 + 1_200, 131_072 + 100] {
        let (bytes, _) = plain(length);
        assert_eq!(bytes.len(), length);
        let [high, low] = (length as u16).to_be_bytes();
        assert_eq!([bytes[2], bytes[4]], [high ^ 0x55, low ^ 0x55]);
        assert_eq!(read(&bytes, length), refused(4, length));
    }
}

/// The length counts stuffed bytes as two, and not what was stuffed.
#[test]
fn a_length_of_plain_bytes() {
    let mut bytes = enclose(&[0x81, 0xA5, 60, 0x81, 0xD4]);
    assert_eq!(read(&bytes, 1).answer, 0);
    bytes[4] = 13 ^ 0x55;
    assert_eq!(read(&bytes, 1), refused(4, 15));
}
