//! "Every constant [..], except the stuffing key, is escaped with the stuffing byte [..] The value is
//! then XORed with the stuffing key."

use super::{KEY, START, STOP, STUFFING};

#[inline(always)]
pub fn is_stuffed(byte: u8) -> bool {
    matches!(byte, START | STOP | STUFFING)
}

/// The bytes that were stuffed to these; none where a pair is none of the three, or there are too
/// many. A start or a stop by itself is not looked for: it would have been one, unless it came first
/// and the header ended in a stuffing byte.
pub fn unstuffed<'a>(stuffed: &[u8], room: &'a mut [u8]) -> Option<&'a [u8]> {
    let mut length = 0;
    let mut rest = stuffed.iter();
    while let Some(&byte) = rest.next() {
        let plain = match byte {
            STUFFING => rest.next().map(|second| second ^ KEY).filter(|&byte| is_stuffed(byte))?,
            byte => byte,
        };
        *room.get_mut(length)? = plain;
        length += 1;
    }
    Some(&room[..length])
}

/// Stuffs the bytes to an output that is as long as that makes them.
pub fn stuff(plain: &[u8], out: &mut [u8]) {
    let mut room = out.iter_mut();
    let mut put = |byte| {
        if let Some(place) = room.next() {
            *place = byte;
        }
    };
    for &byte in plain {
        if is_stuffed(byte) {
            put(STUFFING);
            put(byte ^ KEY);
        } else {
            put(byte);
        }
    }
}
