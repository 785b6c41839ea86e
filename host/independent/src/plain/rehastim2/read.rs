//! The reader: 1, 3, 4, 16.

use super::checksum::checksum;
use super::{values, MOST};
use crate::plain::answer::{DONE, NOT_GOOD, OUTPUT_TOO_SHORT, UNFINISHED, WRONG_CHECK};
use crate::plain::packets::{self, unstuffed, KEY, STUFFING};
use crate::rehastim2::Command;

/// Any packet, with the size of its data. There is no command, and there are zeros, unless the answer
/// is 0; the bytes used are told for 3 and 4 too.
#[derive(Clone, Copy, Debug, Default, PartialEq, Eq)]
pub struct Read {
    pub used: usize,
    pub answer: u8,
    pub packet: u8,
    pub size: u8,
    pub command: Option<Command>,
}

/// Reads the first packet of `bytes`, and puts its data to the start of `out`.
#[inline(never)]
pub fn read(bytes: &[u8], out: &mut [u8]) -> Read {
    let Some((content, used)) = packets::packet(bytes) else {
        return Read { answer: UNFINISHED, ..Read::default() };
    };
    let mut room = [0; MOST];
    let fields = match Fields::of(content, &mut room) {
        Ok(fields) => fields,
        Err(answer) => return Read { answer, used, ..Read::default() },
    };
    let Fields { packet, command, data } = fields;
    let Some(out) = out.get_mut(..data.len()) else {
        return Read { answer: OUTPUT_TOO_SHORT, ..Read::default() };
    };
    out.copy_from_slice(data);
    Read { used, answer: DONE, packet, size: data.len() as u8, command: Some(command) }
}

struct Fields<'a> {
    packet: u8,
    command: Command,
    data: &'a [u8],
}

impl<'a> Fields<'a> {
    /// Of what stands between start and stop; `room` is for bytes that are unstuffed.
    #[inline(always)]
    fn of(content: &'a [u8], room: &'a mut [u8; MOST]) -> Result<Fields<'a>, u8> {
        let [STUFFING, told, behind @ ..] = content else {
            return Err(WRONG_CHECK);
        };
        if told ^ KEY != checksum(behind.get(2..).unwrap_or_default()) {
            return Err(WRONG_CHECK);
        }
        let [STUFFING, length, covered @ ..] = behind else {
            return Err(NOT_GOOD);
        };
        if usize::from(length ^ KEY) != covered.len() {
            return Err(NOT_GOOD);
        }
        let plain = if covered.contains(&STUFFING) {
            unstuffed(covered, room).ok_or(NOT_GOOD)?
        } else {
            covered
        };
        let [packet, number, data @ ..] = plain else {
            return Err(NOT_GOOD);
        };
        if plain.len() > MOST {
            return Err(NOT_GOOD);
        }
        let command = values::command(*number, data).ok_or(NOT_GOOD)?;
        Ok(Fields { packet: *packet, command, data })
    }
}
