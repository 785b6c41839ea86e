//! Every length and every checksum that a header can tell, and headers that are not whole.

use crate::agree::{self, refused};
use crate::device::{LONGEST_DATA, WHOLE};
use crate::made::{config, pulse};
use independent::rehamove3::{checksum, compose, enclose};

const MARKS: [u8; 3] = [0xF0, 0x0F, 0x81];

/// Where a packet tells the length and the checksum, high byte first.
const LENGTH: [usize; 2] = [2, 4];
const CHECKSUM: [usize; 2] = [6, 8];

/// Packets of which each but the last is read if its header is right.
fn packets() -> [Vec<u8>; 5] {
    let points: Vec<(u16, u16)> = (1..=16).map(|number| (number * 0x0F, 40 + number)).collect();
    [
        WHOLE.to_vec(),
        compose(60, 3, &[7, 0x0F]),
        compose(1, 2, &config(pulse(&points)).data()),
        compose(2, 600, &[0x33; 300]),
        compose(3, 0, &[14]),
    ]
}

fn tell(bytes: &mut [u8], places: [usize; 2], number: u16) {
    for (place, byte) in places.into_iter().zip(number.to_be_bytes()) {
        bytes[place] = byte ^ 0x55;
    }
}

/// Of the 65,536 one is right: any other is 4, whatever else is wrong.
#[test]
fn every_length() {
    for mut bytes in packets() {
        let right = bytes.len() as u16;
        let whole = agree::read(&bytes, LONGEST_DATA);
        for length in 0..=u16::MAX {
            tell(&mut bytes, LENGTH, length);
            let reading = agree::read(&bytes, LONGEST_DATA);
            if length == right {
                assert_eq!(reading, whole);
            } else {
                assert_eq!(reading, refused(4, bytes.len()), "{length}");
            }
        }
    }
}

/// Of the 65,536 one is right: any other is 3, with a wrong length too.
#[test]
fn every_checksum() {
    for mut bytes in packets() {
        let right = checksum(&bytes[9..bytes.len() - 1]);
        let whole = agree::read(&bytes, LONGEST_DATA);
        for sum in 0..=u16::MAX {
            tell(&mut bytes, CHECKSUM, sum);
            let reading = agree::read(&bytes, LONGEST_DATA);
            if sum == right {
                assert_eq!(reading, whole);
            } else {
                assert_eq!(reading, refused(3, bytes.len()), "{sum:04X}");
            }
        }
        tell(&mut bytes, LENGTH, 0);
        tell(&mut bytes, CHECKSUM, !right);
        assert_eq!(agree::read(&bytes, LONGEST_DATA), refused(3, bytes.len()));
    }
}

/// The checksum covers the stuffed bytes: that of the plain ones is wrong.
#[test]
fn of_the_stuffed_bytes() {
    for byte in MARKS {
        let mut bytes = compose(60, 900, &[byte]);
        assert_eq!(agree::read(&bytes, 1).answer, 0);
        let [high, low] = u16::to_be_bytes(60 << 10 | 900);
        tell(&mut bytes, CHECKSUM, checksum(&[high, low, byte]));
        assert_eq!(agree::read(&bytes, 1), refused(3, bytes.len()));
    }
}

/// Each of the four stuffing bytes replaced: the checksum's are missing (3), the length's wrong (4).
#[test]
fn every_stuffing_byte() {
    for whole in packets() {
        for (place, answer) in [(1, 4), (3, 4), (5, 3), (7, 3)] {
            for byte in 0..=255 {
                let mut bytes = whole.clone();
                bytes[place] = byte;
                let reading = agree::read(&bytes, LONGEST_DATA);
                if !MARKS.contains(&byte) {
                    assert_eq!(reading, refused(answer, bytes.len()), "{place} {byte:02X}");
                }
            }
        }
    }
}

/// "A body of fewer than 8 bytes lacks its checksum", and one of 8 or 9 has no room for packet number
/// and command.
#[test]
fn every_short_body() {
    for body in 0..8 {
        for whole in packets() {
            let bytes = [&whole[..=body], &[0x0F]].concat();
            // Straight after 81 the stop is none.
            let open = whole[body] == 0x81;
            let expected = if open { refused(1, 0) } else { refused(3, bytes.len()) };
            assert_eq!(agree::read(&bytes, LONGEST_DATA), expected, "{bytes:02X?}");
        }
    }
    let empty = enclose(&[]);
    assert_eq!(empty, [0xF0, 0x81, 0x55, 0x81, 0x5F, 0x81, 0x55, 0x81, 0x55, 0x0F]);
    assert_eq!(agree::read(&empty, LONGEST_DATA), refused(4, 10));
    for byte in (0..=255).filter(|byte| !MARKS.contains(byte)) {
        assert_eq!(agree::read(&enclose(&[byte]), LONGEST_DATA), refused(4, 11), "{byte:02X}");
    }
    for byte in MARKS {
        let bytes = enclose(&[0x81, byte ^ 0x55]);
        assert_eq!(agree::read(&bytes, LONGEST_DATA), refused(4, 12), "{byte:02X}");
    }
}
