//! Random records of the trace, readouts of them, their sheets, and damaged sheets.

use independent::sheet::write;
use independent::Record;
use rand::rngs::SmallRng;
use rand::seq::SliceRandom;
use rand::Rng;

/// "For each of 0, 3 to 10 given to a command".
const ANSWERS: [u8; 9] = [0, 3, 4, 5, 6, 7, 8, 9, 10];

/// Those where a number gains a digit or leaves its range.
const WIDTHS: [u16; 7] = [10, 11, 99, 100, 101, 499, 500];
const CURRENTS: [u8; 7] = [1, 9, 10, 99, 100, 126, 127];

/// The first value and the last beyond each range, and some further off.
const NO_IDENTS: [u8; 4] = [4, 5, 128, 255];
const NO_ANSWERS: [u8; 5] = [1, 2, 11, 17, 255];
const NO_CHANNELS: [u8; 4] = [0, 9, 10, 255];
const NO_WIDTHS: [u16; 8] = [0, 1, 9, 501, 511, 512, 600, 65_535];
const NO_CURRENTS: [u8; 4] = [0, 128, 129, 255];
const NO_CAUSES: [u8; 4] = [0, 3, 4, 255];

/// A record at this clock, every field in its range.
pub fn record(rng: &mut SmallRng, clock: u32) -> Record {
    match rng.gen_range(0..4) {
        0 => Record::Answer { clock, ident: rng.gen_range(0..=3), answer: any(rng, &ANSWERS) },
        1 => Record::Trip { clock, cause: rng.gen_range(1..=2) },
        _ => Record::Pulse {
            clock,
            channel: rng.gen_range(1..=8),
            width: if rng.gen_ratio(1, 4) { any(rng, &WIDTHS) } else { rng.gen_range(10..=500) },
            current: if rng.gen_ratio(1, 4) { any(rng, &CURRENTS) } else { rng.gen_range(1..=127) },
        },
    }
}

/// A record at this clock, one field of it out of its range.
pub fn bad_record(rng: &mut SmallRng, clock: u32) -> Record {
    let mut bad = record(rng, clock);
    match &mut bad {
        Record::Answer { ident, .. } if rng.gen() => *ident = any(rng, &NO_IDENTS),
        Record::Answer { answer, .. } => *answer = any(rng, &NO_ANSWERS),
        Record::Pulse { channel, width, current, .. } => match rng.gen_range(0..3) {
            0 => *channel = any(rng, &NO_CHANNELS),
            1 => *width = any(rng, &NO_WIDTHS),
            _ => *current = any(rng, &NO_CURRENTS),
        },
        Record::Trip { cause, .. } => *cause = any(rng, &NO_CAUSES),
    }
    bad
}

/// This many clocks: one behind the other, or with gaps, or each as it comes; some gain a digit or lose
/// one.
pub fn clocks(rng: &mut SmallRng, number: usize) -> Vec<u32> {
    let step = any(rng, &[0, 1, 100, 3_000, 20_000, u32::MAX]);
    let mut clock: u32 = rng.gen::<u32>() >> rng.gen_range(0..32);
    let mut next = || {
        clock = match rng.gen_range(0..20) {
            0 => clock / 10,
            1 => clock.wrapping_mul(10).wrapping_add(rng.gen_range(0..10)),
            2 => any(rng, &[0, 9, 10, 9_999, 10_000, 99_999_999, 100_000_000, u32::MAX]),
            _ => clock.wrapping_add(rng.gen_range(0..=step)),
        };
        clock
    };
    (0..number).map(|_| next()).collect()
}

/// A readout of this many records, every field in its range.
pub fn readout(rng: &mut SmallRng, number: usize) -> Vec<u8> {
    clocks(rng, number).into_iter().flat_map(|clock| record(rng, clock).bytes()).collect()
}

/// The sheet of such a readout.
pub fn sheet(rng: &mut SmallRng, number: usize) -> Vec<u8> {
    let mut out = vec![0; 44 + 28 * number];
    let size = write(&readout(rng, number), &mut out).expect("every field is in its range");
    out.truncate(size);
    out
}

/// The sheet with one change: of a byte, of a line or of how a number is spelt. It may be good still.
pub fn damaged(rng: &mut SmallRng, mut sheet: Vec<u8>) -> Vec<u8> {
    let place = rng.gen_range(0..sheet.len().max(1));
    match rng.gen_range(0..8) {
        _ if sheet.is_empty() => sheet.push(byte(rng)),
        0 | 1 => sheet[place] = byte(rng),
        2 => sheet[place] ^= 1 << rng.gen_range(0..8),
        3 => drop(sheet.remove(place)),
        4 => sheet.insert(place, byte(rng)),
        5 => sheet.truncate(place),
        6 => return lines_changed(rng, &sheet),
        _ => respelt(rng, &mut sheet),
    }
    sheet
}

/// A line is dropped or doubled, or two are swapped.
fn lines_changed(rng: &mut SmallRng, sheet: &[u8]) -> Vec<u8> {
    let mut lines: Vec<&[u8]> = sheet.split_inclusive(|byte| *byte == b'\n').collect();
    let [one, other] = [(); 2].map(|()| rng.gen_range(0..lines.len()));
    match rng.gen_range(0..3) {
        0 => drop(lines.remove(one)),
        1 => lines.insert(other, lines[one]),
        _ => lines.swap(one, other),
    }
    lines.concat()
}

/// A number gets what the language reads before one, or what a spreadsheet leaves around one.
fn respelt(rng: &mut SmallRng, sheet: &mut Vec<u8>) {
    let is_digit = |place: usize| sheet.get(place).is_some_and(u8::is_ascii_digit);
    let starts = (1..sheet.len()).filter(|place| is_digit(*place) && !is_digit(place - 1));
    if let Some(start) = starts.collect::<Vec<_>>().choose(rng) {
        let (before, behind) = any(
            rng,
            &[("0", ""), ("00", ""), ("+", ""), ("-", ""), (" ", ""), ("", " "), ("\"", "\"")],
        );
        let end = (*start..).find(|place| !is_digit(*place)).expect("there is an end");
        sheet.splice(end..end, behind.bytes());
        sheet.splice(start..start, before.bytes());
    }
}

/// Any byte, most often one that means something in a sheet or in another one's.
fn byte(rng: &mut SmallRng) -> u8 {
    if rng.gen_ratio(1, 4) {
        rng.gen()
    } else {
        any(rng, b"0123456789,,,\n\n\r\t \"';+-.apt\0\xEF")
    }
}

fn any<T: Copy>(rng: &mut SmallRng, of: &[T]) -> T {
    of[rng.gen_range(0..of.len())]
}
