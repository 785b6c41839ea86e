//! Checksums worked out, for words alone: the library has its own.

/// A cyclic check of so many bytes: highest bit first, from 0 on, with nothing added at the end.
pub fn of(bytes: &[u8], polynomial: u16, size: usize) -> u16 {
    let shift = 8 * (size - 1);
    let highest = 0x80 << shift;
    bytes.iter().fold(0, |sum, byte| {
        (0..8).fold(sum ^ u16::from(*byte) << shift, |left, _| {
            let shifted = (left & !highest) << 1;
            shifted ^ if left & highest == 0 { 0 } else { polynomial }
        })
    })
}

#[cfg(test)]
mod tests {
    use super::of;

    /// The check values that catalogues give for these CRCs.
    #[test]
    fn of_nine_digits() {
        assert_eq!(of(b"123456789", 0x07, 1), 0xF4);
        assert_eq!(of(b"123456789", 0x1021, 2), 0x31C3);
        assert_eq!([of(b"", 0x07, 1), of(b"", 0x1021, 2)], [0, 0]);
    }
}
