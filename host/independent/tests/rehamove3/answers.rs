//! "Answers and order are Req 12's": 1, 3, 4, 16.

use crate::refused::refused;
use independent::rehamove3::{checksum, compose, enclose, read, Command};

/// What always has a meaning of its own.
const MARKS: [u8; 3] = [0xF0, 0x0F, 0x81];

/// A packet with this length and this checksum in its header, whatever is right.
fn told(length: u16, checksum: u16, content: &[u8]) -> Vec<u8> {
    let mut bytes = enclose(content);
    let numbers = [length, checksum].map(u16::to_be_bytes);
    for (place, byte) in [2, 4, 6, 8].into_iter().zip(numbers.as_flattened()) {
        bytes[place] = byte ^ 0x55;
    }
    bytes
}

/// Too few bytes for the checksum, whatever they are.
#[test]
fn no_room_for_the_checksum() {
    let body = [0x81, 0x55, 0x81, 0x59, 0x81, 0x9C, 0x81, 0x78];
    for length in 0..8 {
        for body in [&body[..length], &[0x33; 8][..length]] {
            let bytes = [&[0xF0], body, &[0x0F]].concat();
            let stuffed = body.last() == Some(&0x81);
            let expected = if stuffed { refused(1, 0) } else { refused(3, bytes.len()) };
            assert_eq!(read(&bytes, 0), expected, "{bytes:02X?}");
        }
    }
}

/// Another byte where a stuffing byte of the checksum is to be is 3, of the length 4; both is 3.
#[test]
fn headers_that_are_not_stuffed() {
    let good = compose(2, 4, &[]);
    assert_eq!(read(&good, 0).answer, 0);
    for byte in (0..=255).filter(|byte| !MARKS.contains(byte)) {
        for (places, answer) in [
            (&[1][..], 4),
            (&[3], 4),
            (&[1, 3], 4),
            (&[5], 3),
            (&[7], 3),
            (&[5, 7], 3),
            (&[1, 7], 3),
            (&[3, 5], 3),
        ] {
            let mut bytes = good.clone();
            places.iter().for_each(|&place| bytes[place] = byte);
            assert_eq!(read(&bytes, 0), refused(answer, 12), "{bytes:02X?}");
        }
    }
}

/// Any checksum but the right one is 3, whatever else is wrong: here the length, a pair, and the size
/// of an output.
#[test]
fn wrong_checksum_before_all_else() {
    let content = [0, 60, 0x81, 0x33];
    for sum in 0..=u16::MAX {
        let answer = if sum == checksum(&content) { 4 } else { 3 };
        assert_eq!(read(&told(7, sum, &content), 0), refused(answer, 14), "{sum:04X}");
    }
}

/// No byte behind the header: a checksum of 0 is right, and the packet has no command.
#[test]
fn nothing_behind_the_header() {
    for sum in 0..=u16::MAX {
        let expected = match sum.to_be_bytes() {
            [0, 0] => refused(4, 10),
            // Stuffed to 81 81, so that the stop is none.
            [_, 0xD4] => refused(1, 0),
            _ => refused(3, 10),
        };
        assert_eq!(read(&told(10, sum, &[]), 0), expected, "{sum:04X}");
    }
}

#[test]
fn no_room_for_the_numbers() {
    for byte in (0..=255).filter(|byte| !MARKS.contains(byte)) {
        assert_eq!(read(&enclose(&[byte]), 0), refused(4, 11));
    }
    for second in [0xA5, 0x5A, 0xD4] {
        assert_eq!(read(&enclose(&[0x81, second]), 0), refused(4, 12));
    }
    assert_eq!(read(&enclose(&[0x08, 0x04]), 0).answer, 0);
}

/// 81 stands before A5, 5A and D4 alone.
#[test]
fn stuffed_pairs() {
    for second in 0..=255 {
        for (before, behind) in
            [(&[][..], &[60][..]), (&[0], &[]), (&[0, 60], &[]), (&[0, 60], &[7])]
        {
            let bytes = enclose(&[before, &[0x81, second], behind].concat());
            let found = read(&bytes, 1_188);
            match second {
                0xA5 | 0x5A | 0xD4 => {
                    assert_eq!((found.answer, found.used), (0, bytes.len()), "{bytes:02X?}");
                }
                // The stop behind it is none.
                0x81 if behind.is_empty() => assert_eq!(found, refused(1, 0)),
                _ => assert_eq!(found, refused(4, bytes.len()), "{bytes:02X?}"),
            }
        }
    }
}

/// Behind a checksum that ends in D4, stuffed to 81 81, an F0 or a 0F starts or stops nothing; it stands
/// there bare, as the writer would not leave it.
#[test]
fn a_bare_start_or_stop() {
    for bare in [0xF0, 0x0F] {
        let contents = (0..=u16::MAX).map(|data| {
            let [high, low] = data.to_be_bytes();
            [bare, 60, high, low]
        });
        let plain = contents.filter(|content| {
            checksum(content) as u8 == 0xD4 && !content[2..].iter().any(|byte| MARKS.contains(byte))
        });
        let mut tried = 0;
        for content in plain {
            let bytes = enclose(&content);
            assert_eq!(read(&bytes, 1_188), refused(4, bytes.len()), "{bytes:02X?}");
            tried += 1;
        }
        assert!(tried > 200, "{tried}");
    }
}

/// Of all rooms for the data.
#[test]
fn short_output_last() {
    for size in (0..=70).chain([500, 1_187, 1_188]) {
        let bytes = compose(9, 60, &vec![0x33; size]);
        for room in (0..=71).chain([499, 500, 501, 1_187, 1_188, 1_189]) {
            let found = read(&bytes, room);
            if room < size {
                assert_eq!(found, refused(16, 0), "{size} {room}");
            } else {
                assert_eq!((found.answer, found.used), (0, bytes.len()), "{size} {room}");
                assert_eq!(found.data, vec![0x33; size]);
                assert_eq!(found.command, Some(Command::Other { number: 60 }));
            }
        }
    }
    // A carried command that is good, one that has too much data and one that has a bad value.
    assert_eq!(read(&compose(9, 0, &[0]), 0), refused(16, 0));
    assert_eq!(read(&compose(9, 0, &[0, 0]), 0), refused(4, 14));
    assert_eq!(read(&compose(9, 0, &[1]), 0), refused(4, 13));
}
