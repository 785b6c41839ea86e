//! "1 for a packet not finished, 3 for a wrong or missing checksum, 4 for a wrong length, a stuffed
//! pair the writer would not make, or a bad value, and 16 for a short output, in that order".

use independent::rehastim2::{checksum, compose, read, Command, Reading};

fn refused(answer: u8, used: usize) -> Reading {
    Reading { answer, used, ..Reading::default() }
}

/// A packet of these stuffed bytes, with its right checksum and with this length.
fn packet(covered: &[u8], length: u8) -> Vec<u8> {
    let header = [0xF0, 0x81, checksum(covered) ^ 0x55, 0x81, length ^ 0x55];
    [&header, covered, &[0x0F]].concat()
}

/// The same with its right length.
fn told(covered: &[u8]) -> Reading {
    let bytes = packet(covered, covered.len() as u8);
    let reading = read(&bytes, 60);
    assert_eq!(reading.used, bytes.len());
    reading
}

/// Too few bytes for the checksum, or another byte where its stuffing byte is to be.
#[test]
fn missing_checksum() {
    for content in [&[][..], &[0x55], &[0x80, 0x55], &[0x80, 0x49, 0x81, 0x57, 0, 4]] {
        let bytes = [&[0xF0], content, &[0x0F]].concat();
        assert_eq!(read(&bytes, 60), refused(3, bytes.len()), "{content:02X?}");
    }
    // The stop stands behind 81, and is none.
    assert_eq!(read(&[0xF0, 0x81, 0x0F], 60), refused(1, 0));
}

/// "A packet that ends before its length is whole covers nothing": 0 is right there, and the answer 4.
#[test]
fn missing_length() {
    for told in 0..=255 {
        for behind in [&[][..], &[0x57], &[0x80], &[0x57, 0x57], &[0x81, 0x57]] {
            let bytes = [&[0xF0, 0x81, told ^ 0x55], behind, &[0x0F]].concat();
            let expected = match told {
                // Stuffed to 81 81, so that the stop is none.
                0xD4 if behind.is_empty() => refused(1, 0),
                0 => refused(4, bytes.len()),
                _ => refused(3, bytes.len()),
            };
            assert_eq!(read(&bytes, 60), expected, "{bytes:02X?}");
        }
    }
}

#[test]
fn wrong_checksum_before_all_else() {
    for told in 0..=255 {
        let mut bytes = packet(&[0, 4, 0x81, 0x33], 7);
        let right = bytes[2] ^ 0x55;
        bytes[2] = told ^ 0x55;
        let answer = if told == right { 4 } else { 3 };
        assert_eq!(read(&bytes, 0), refused(answer, 10), "{told:02X}");
    }
}

#[test]
fn wrong_length() {
    for length in 0..=255 {
        let bytes = packet(&[0, 4], length);
        let answer = if length == 2 { 0 } else { 4 };
        assert_eq!(read(&bytes, 0).answer, answer);
        assert_eq!(read(&bytes, 0).used, 8);
    }
    // The length without its stuffing byte.
    for byte in (0..=255).filter(|byte| ![0xF0, 0x0F, 0x81].contains(byte)) {
        let bytes = [0xF0, 0x81, 0x49, byte, 0x57, 0, 4, 0x0F];
        assert_eq!(read(&bytes, 0), refused(4, 8), "{byte:02X}");
    }
}

/// The length counts the stuffed bytes.
#[test]
fn a_length_of_plain_bytes() {
    assert_eq!(read(&packet(&[0x81, 0xA5, 4], 2), 0), refused(4, 9));
    assert_eq!(read(&packet(&[0x81, 0xA5, 4], 3), 0).answer, 0);
}

/// 256 bytes do not pass for none.
#[test]
fn a_length_past_its_byte() {
    for more in [0, 2, 3] {
        let bytes = packet(&vec![4; 256 + more], more as u8);
        assert_eq!(read(&bytes, 300), refused(4, 262 + more));
    }
}

/// 81 stands before A5, 5A and D4 alone.
#[test]
fn stuffed_pairs() {
    for second in 0..=255 {
        for (before, behind) in
            [(&[][..], &[60][..]), (&[1], &[]), (&[1, 60], &[]), (&[1, 60], &[7])]
        {
            let covered = [before, &[0x81, second], behind].concat();
            let bytes = packet(&covered, covered.len() as u8);
            let found = read(&bytes, 60);
            match second {
                0xA5 | 0x5A | 0xD4 => assert_eq!(found.answer, 0, "{bytes:02X?}"),
                // The stop behind it is none.
                0x81 if behind.is_empty() => assert_eq!(found, refused(1, 0)),
                _ => assert_eq!(found, refused(4, bytes.len()), "{bytes:02X?}"),
            }
        }
    }
}

#[test]
fn no_room_for_number_and_command() {
    assert_eq!(told(&[]).answer, 4);
    assert_eq!(told(&[4]).answer, 4);
    assert_eq!(told(&[0x81, 0xA5]).answer, 4);
    assert_eq!(told(&[0, 4]).answer, 0);
}

/// "Command data < 61 Byte", before stuffing.
#[test]
fn how_much_data() {
    for byte in [0x33, 0xF0] {
        for length in 0..=130 {
            let data = vec![byte; length];
            let bytes = compose(8, 60, &data);
            let found = read(&bytes, 200);
            if length <= 60 {
                let command = Some(Command::Other { number: 60 });
                let used = bytes.len();
                assert_eq!(found, Reading { answer: 0, used, packet: 8, command, data });
            } else {
                assert_eq!(found, refused(4, bytes.len()));
            }
        }
    }
}

#[test]
fn short_output_last() {
    for length in 0..=60 {
        let bytes = compose(8, 60, &vec![0x0F; length]);
        for room in 0..=61 {
            let answer = if room < length { 16 } else { 0 };
            let found = read(&bytes, room);
            assert_eq!(found.answer, answer);
            assert_eq!(found.used, if answer == 0 { bytes.len() } else { 0 });
        }
    }
    assert_eq!(read(&compose(8, 1, &[1]), 0), refused(16, 0));
    assert_eq!(read(&compose(8, 1, &[1, 2]), 0), refused(4, 10));
    assert_eq!(read(&compose(8, 60, &[0; 61]), 0), refused(4, 69));
}
