//! The reader: 1, 3, 4, 16.

use super::checksum::checksum;
use super::values::command;
use super::{AROUND, LONGEST, MOST_CARRIED};
use crate::plain::answer::{DONE, NOT_GOOD, OUTPUT_TOO_SHORT, UNFINISHED, WRONG_CHECK};
use crate::plain::packets::{packet, unstuffed, KEY, START, STOP, STUFFING};
use crate::rehamove3::Command;

/// Any packet, with the size of its data and the net charge of its pulse. There is no command, and there
/// are zeros, unless the answer is 0; the bytes used are told for 3 and 4 too.
#[derive(Clone, Copy, Debug, Default, PartialEq, Eq)]
pub struct Read {
    pub used: usize,
    pub charge: i32,
    pub answer: u8,
    pub packet: u8,
    pub size: u16,
    pub command: Option<Command>,
}

/// Reads the first packet of `bytes`, and puts its data to the start of `out`.
#[inline(never)]
pub fn read(bytes: &[u8], out: &mut [u8]) -> Read {
    let Some((body, used)) = packet(bytes) else {
        return Read { answer: UNFINISHED, ..Read::default() };
    };
    let content = match content(body) {
        Ok(content) => content,
        Err(answer) => return Read { answer, used, ..Read::default() },
    };
    let read = if !content.contains(&STUFFING) {
        report(content, used, out)
    } else if content.len() <= 2 * MOST_CARRIED {
        // Few bytes need little room, which is cleared sooner.
        let mut room = [0; 2 * MOST_CARRIED];
        unstuffed(content, &mut room).and_then(|plain| report(plain, used, out))
    } else {
        let mut room = [0; LONGEST - AROUND];
        unstuffed(content, &mut room).and_then(|plain| report(plain, used, out))
    };
    read.unwrap_or(Read { answer: NOT_GOOD, used, ..Read::default() })
}

/// What stands behind a header that is right.
#[inline(always)]
fn content(body: &[u8]) -> Result<&[u8], u8> {
    let [_, _, _, _, STUFFING, high, STUFFING, low, content @ ..] = body else {
        return Err(WRONG_CHECK);
    };
    if number(*high, *low) != checksum(content) {
        return Err(WRONG_CHECK);
    }
    let length = AROUND + content.len();
    let right = match body {
        [STUFFING, high, STUFFING, low, ..] => usize::from(number(*high, *low)) == length,
        _ => false,
    };
    // Behind a checksum that ends in a stuffing byte.
    let bare = matches!(content, [START | STOP, ..]);
    if right & (length <= LONGEST) & !bare {
        Ok(content)
    } else {
        Err(NOT_GOOD)
    }
}

/// Two stuffed bytes of the header.
#[inline(always)]
fn number(high: u8, low: u8) -> u16 {
    u16::from_be_bytes([high ^ KEY, low ^ KEY])
}

/// Of a packet's plain bytes; none if they are not good.
#[inline(always)]
fn report(plain: &[u8], used: usize, out: &mut [u8]) -> Option<Read> {
    let [first, second, data @ ..] = plain else {
        return None;
    };
    let (command, charge) = command(u16::from_be_bytes([first & 3, *second]), data)?;
    let Some(out) = out.get_mut(..data.len()) else {
        return Some(Read { answer: OUTPUT_TOO_SHORT, ..Read::default() });
    };
    out.copy_from_slice(data);
    let (packet, size) = (first >> 2, data.len() as u16);
    Some(Read { used, charge, answer: DONE, packet, size, command: Some(command) })
}
