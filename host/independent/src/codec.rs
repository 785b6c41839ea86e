//! Reading and writing whole frames, with the tests of document 01 in their order.

use crate::command::{Command, Places};
use crate::tables::{Kind, Layout, Variable, LAYOUTS};
use crate::{good, walk};

/// The numbers of document 01 that the codec answers.
const UNFINISHED: u8 = 1;
const LOW_BYTE: u8 = 2;
const WRONG_CHECK: u8 = 3;
const NOT_GOOD: u8 = 4;
const OUTPUT_TOO_SHORT: u8 = 16;
const CUT: u8 = 17;

/// A frame as it was read, and how many bytes it has.
#[derive(Clone, Copy, Debug, PartialEq, Eq)]
pub struct Frame {
    pub command: Command,
    pub used: usize,
}

/// Reads the frame at the start of `bytes`, for a list of `count` channels.
pub fn read(bytes: &[u8], count: usize) -> Result<Frame, u8> {
    if !good::count(count) {
        return Err(NOT_GOOD);
    }
    let first = *bytes.first().ok_or(UNFINISHED)?;
    // The first bytes of the four tables fix bit 7 and every Ident: only a low byte fits none.
    let layout =
        LAYOUTS.iter().find(|layout| walk::fits(&layout.once[0], first)).ok_or(LOW_BYTE)?;
    let used = layout.rows(count).count();
    let frame = bytes.get(..used).ok_or(UNFINISHED)?;
    let mut places = Places::default();
    for ((row, place), &byte) in layout.rows(count).zip(frame) {
        if !walk::fits(row, byte) {
            return Err(CUT);
        }
        walk::take(row, byte, &mut places[place]);
    }
    if u32::from(places[0].get(Variable::Check)) != sum(&places) % layout.modulus {
        return Err(WRONG_CHECK);
    }
    let command = Command::from_places(layout.kind, &places);
    if !good::command(&command, count) {
        return Err(NOT_GOOD);
    }
    Ok(Frame { command, used })
}

/// Writes the frame of a command to the start of `out`; `count` matters to Update alone. Hands back
/// how many bytes it has.
pub fn write(command: &Command, count: usize, out: &mut [u8]) -> Result<usize, u8> {
    if !good::command(command, count) {
        return Err(NOT_GOOD);
    }
    let frame = compose(command, count, check(command));
    out.get_mut(..frame.len()).ok_or(OUTPUT_TOO_SHORT)?.copy_from_slice(&frame);
    Ok(frame.len())
}

/// The right Check of a command (tables 4, 6, 8 and 10).
pub fn check(command: &Command) -> u8 {
    let check = sum(&command.places()) % Layout::of(command.kind()).modulus;
    u8::try_from(check).expect("it is below 32")
}

/// The frame of a command with a given Check. It tests no value: a value too great for its bits
/// loses those above.
pub fn compose(command: &Command, count: usize, check: u8) -> Vec<u8> {
    let mut places = command.places();
    places[0].set(Variable::Check, check.into());
    let rows = Layout::of(command.kind()).rows(count);
    rows.map(|(row, place)| walk::give(row, &places[place])).collect()
}

/// The don't-care bits of each byte of a frame.
pub fn free_bits(kind: Kind, count: usize) -> Vec<u8> {
    Layout::of(kind).rows(count).map(|(row, _)| walk::free(row)).collect()
}

/// Section 5.7: Ident in bits 7 and 6, "1 = OK, 0 = error" in bit 0; document 01: the rest clear,
/// and "no command decided: reply 0", where a command is given 0 or 3 to 10.
pub fn reply(ident: u8, answer: u8) -> u8 {
    match answer {
        0 => ident % 4 * 64 + 1,
        3..=10 => ident % 4 * 64,
        _ => 0,
    }
}

fn sum(places: &Places) -> u32 {
    places.iter().map(|place| place.sum()).sum()
}
