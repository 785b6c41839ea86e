//! Reading and writing whole packets, with the tests of request 13 in their order, which is that of
//! request 12.

use super::bits::{bytes, fields, Layout};
use super::{checksum, Command};
use crate::packets::answer::{DONE, NOT_GOOD, OUTPUT_TOO_SHORT, UNFINISHED, WRONG_CHECKSUM};
use crate::packets::{always_stuffed, packet, stuffed, unstuffed, KEY, START, STOP, STUFFING};
use std::ops::Range;

/// "The maximum packet length including stuffing is 1200 Bytes."
const LONGEST: usize = 1200;

/// Where length and checksum stand behind the start, "always stuffed" to 4 bytes each, and where the
/// packet data begins.
const LENGTH: Range<usize> = 0..4;
const CHECKSUM: Range<usize> = 4..8;
const HEADER: usize = 8;

/// Start and stop.
const AROUND: usize = 2;

/// Packet number, command number.
const NUMBERS: Layout<2> = [6, 10];

/// What the reader tells: no command, zeros and no data unless the answer is 0. The bytes used, to
/// the stop and with the garbage before the start, are told for 3 and 4 too.
#[derive(Clone, Debug, Default, PartialEq, Eq)]
pub struct Reading {
    pub answer: u8,
    pub used: usize,
    pub packet: u8,
    pub command: Option<Command>,
    /// The net charge of an Ll_channel_config's pulse, 0 of any other command.
    pub charge: i32,
    pub data: Vec<u8>,
}

/// Reads the first packet of `bytes`, for an output of `room` bytes.
pub fn read(bytes: &[u8], room: usize) -> Reading {
    let Some((body, used)) = packet(bytes) else {
        return Reading { answer: UNFINISHED, ..Reading::default() };
    };
    match parts(body) {
        Ok((_, _, data)) if data.len() > room => {
            Reading { answer: OUTPUT_TOO_SHORT, ..Reading::default() }
        }
        Ok((packet, command, data)) => {
            let charge = command.charge();
            Reading { answer: DONE, used, packet, command: Some(command), charge, data }
        }
        Err(answer) => Reading { answer, used, ..Reading::default() },
    }
}

/// The packet number, the command and its data, of what stands between start and stop.
fn parts(body: &[u8]) -> Result<(u8, Command, Vec<u8>), u8> {
    let told = header(body, CHECKSUM).ok_or(WRONG_CHECKSUM)?;
    let content = &body[HEADER..];
    if told != checksum(content) {
        return Err(WRONG_CHECKSUM);
    }
    let length = header(body, LENGTH).ok_or(NOT_GOOD)?;
    if usize::from(length) != body.len() + AROUND || body.len() + AROUND > LONGEST {
        return Err(NOT_GOOD);
    }
    let plain = unstuffed(content).ok_or(NOT_GOOD)?;
    let (data, [packet, number]) = fields(NUMBERS)(&plain).map_err(|_| NOT_GOOD)?;
    let command = Command::of_data(number, data).ok_or(NOT_GOOD)?;
    Ok((packet as u8, command, data.to_vec()))
}

/// The number of two bytes at this place of the header, if it is there and both are stuffed.
fn header(body: &[u8], place: Range<usize>) -> Option<u16> {
    let (high, behind) = always_stuffed(body.get(place)?)?;
    let (low, _) = always_stuffed(behind)?;
    Some(u16::from_be_bytes([high, low]))
}

/// The packet of a command; none, which is answer 4, if it is another command, a value is not good or
/// its pulse has a net charge.
pub fn write(packet: u8, command: Command) -> Option<Vec<u8>> {
    let good = packet <= 63 && command.good() && command.charge() == 0;
    good.then(|| compose(packet, command.number(), &command.data()))
}

/// The packet of any command with any data. It tests nothing: a packet number or a command number too
/// great for its bits loses what is above.
pub fn compose(packet: u8, number: u16, data: &[u8]) -> Vec<u8> {
    let mut plain = bytes(NUMBERS, [packet.into(), number]);
    plain.extend(data);
    enclose(&stuffed(&plain))
}

/// The packet of these bytes, which are to be stuffed already. It tests nothing: a length too great for
/// its two bytes loses what is above.
pub fn enclose(content: &[u8]) -> Vec<u8> {
    let length = (HEADER + AROUND + content.len()) as u16;
    let header = [length, checksum(content)].map(u16::to_be_bytes);
    let mut whole = vec![START];
    whole.extend(header.as_flattened().iter().flat_map(|byte| [STUFFING, byte ^ KEY]));
    whole.extend(content);
    whole.push(STOP);
    whole
}
