//! Reading and writing whole packets, with the tests of request 12 in their order.

use super::{checksum, Command};
use crate::packets::answer::{DONE, NOT_GOOD, OUTPUT_TOO_SHORT, UNFINISHED, WRONG_CHECKSUM};
use crate::packets::{always_stuffed, packet, stuffed, unstuffed, KEY, START, STOP, STUFFING};

/// "Command data < 61 Byte" (table 5).
const LONGEST: usize = 60;

/// What the reader tells: no command, zeros and no data unless the answer is 0. The bytes used, to
/// the stop and with the garbage before the start, are told for 3 and 4 too.
#[derive(Clone, Debug, Default, PartialEq, Eq)]
pub struct Reading {
    pub answer: u8,
    pub used: usize,
    pub packet: u8,
    pub command: Option<Command>,
    pub data: Vec<u8>,
}

/// Reads the first packet of `bytes`, for an output of `room` bytes.
pub fn read(bytes: &[u8], room: usize) -> Reading {
    let Some((content, used)) = packet(bytes) else {
        return Reading { answer: UNFINISHED, ..Reading::default() };
    };
    match fields(content) {
        Ok((_, _, data)) if data.len() > room => {
            Reading { answer: OUTPUT_TOO_SHORT, ..Reading::default() }
        }
        Ok((packet, command, data)) => {
            Reading { answer: DONE, used, packet, command: Some(command), data }
        }
        Err(answer) => Reading { answer, used, ..Reading::default() },
    }
}

/// The packet number, the command and its data, of what stands between start and stop.
fn fields(content: &[u8]) -> Result<(u8, Command, Vec<u8>), u8> {
    let (told, behind) = always_stuffed(content).ok_or(WRONG_CHECKSUM)?;
    // A packet that ends before its length is whole has nothing that the checksum covers.
    let covered = behind.get(2..).unwrap_or_default();
    if told != checksum(covered) {
        return Err(WRONG_CHECKSUM);
    }
    let (length, covered) = always_stuffed(behind).ok_or(NOT_GOOD)?;
    if usize::from(length) != covered.len() {
        return Err(NOT_GOOD);
    }
    let plain = unstuffed(covered).ok_or(NOT_GOOD)?;
    let [packet, number, data @ ..] = &plain[..] else {
        return Err(NOT_GOOD);
    };
    if data.len() > LONGEST {
        return Err(NOT_GOOD);
    }
    let command = Command::of_data(*number, data).ok_or(NOT_GOOD)?;
    Ok((*packet, command, data.to_vec()))
}

/// The packet of a command; none, which is answer 4, if it is another command or a value is not good.
pub fn write(packet: u8, command: Command) -> Option<Vec<u8>> {
    command.good().then(|| compose(packet, command.number(), &command.data()))
}

/// The packet of any command with any data. It tests nothing: a length too great for its byte loses
/// what is above.
pub fn compose(packet: u8, number: u8, data: &[u8]) -> Vec<u8> {
    let covered = stuffed(&[&[packet, number], data].concat());
    let length = covered.len() as u8;
    let mut whole = vec![START, STUFFING, checksum(&covered) ^ KEY, STUFFING, length ^ KEY];
    whole.extend(covered);
    whole.push(STOP);
    whole
}
