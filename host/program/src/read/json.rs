//! A frame for scripts.

use super::keyed::{self, Keyed};
use super::reading::Reading;
use crate::failure::{Failure, Out};
use crate::field::Field;
use crate::{hex, json, reason, words};
use serde::Serialize;

/// The keys. What there is not is null.
#[derive(Serialize)]
struct Line {
    /// All bytes that were given.
    bytes: String,
    /// The command that the first byte opens.
    command: Option<&'static str>,
    ident: Option<u8>,
    /// How many channels an Update lists, and whether its `bytes` or the `argument` tell it.
    channels: Option<usize>,
    channels_from: Option<&'static str>,
    /// How many bytes the frame has, and how many of them are there.
    length: Option<usize>,
    there: Option<usize>,
    /// What the frame says, and of a whole frame the sum of its fields, and what the check should be.
    check: Option<u32>,
    sum: Option<u32>,
    modulus: Option<u32>,
    check_should_be: Option<u32>,
    fields: Option<Keyed<u16>>,
    fields_words: Option<Keyed<String>>,
    /// The fields that are not good.
    faults: Vec<Fault>,
    /// The don't-care bits that are set.
    dont_care_set: Vec<Bits>,
    /// The high byte that cuts the frame, and the bytes behind, which are not used.
    cut_by: Option<String>,
    behind: Option<String>,
    /// What the library says: how many bytes it used, the answer's number and what it says, and the
    /// reply if a command is decided.
    used: usize,
    answer: u8,
    answer_words: String,
    reply: Option<String>,
    note: Option<String>,
}

#[derive(Serialize)]
struct Fault {
    field: String,
    /// Which listed channel's it is, counted from 1.
    entry: Option<usize>,
    rule: &'static str,
}

/// Bits of a byte, which is counted from 1 as in the text.
#[derive(Serialize)]
struct Bits {
    byte: usize,
    bits: Vec<u8>,
}

pub fn print(reading: &Reading, out: Out) -> Result<(), Failure> {
    let given = &reading.given;
    let frame = given.is_frame().then_some(given);
    let first = given.bytes[0];
    let command = frame.map(|_| words::name(first));
    let listed = command == Some("Update");
    let from = if reading.told { "bytes" } else { "argument" };
    let says = reading.values.iter().find(|value| value.field == Field::Check);
    let check = reading.check.as_ref();
    let line = Line {
        bytes: hex::spelt(given.bytes),
        command,
        ident: frame.map(|_| first >> 5 & 3),
        channels: listed.then_some(reading.count),
        channels_from: listed.then_some(from),
        length: frame.map(|frame| frame.length()),
        there: frame.map(|frame| frame.own),
        check: says.map(|value| value.number.into()),
        sum: check.map(|check| check.sum),
        modulus: check.map(|check| check.modulus),
        check_should_be: check.map(|check| check.should_be),
        fields: keyed::numbers(reading),
        fields_words: keyed::words(reading),
        faults: faults(reading),
        dont_care_set: dont_care_set(reading),
        cut_by: given.cutting().map(|byte| hex::spelt(&[byte])),
        behind: Some(hex::spelt(given.behind())).filter(|bytes| !bytes.is_empty()),
        used: reading.used,
        answer: reading.answer.number(),
        answer_words: reading.answer_words(),
        reply: reading.reply.map(|reply| hex::spelt(&[reply])),
        note: reading.note().or_else(|| reason::noted(given.frame())),
    };
    json::line(&line, out)
}

fn faults(reading: &Reading) -> Vec<Fault> {
    let whole = reading.values.iter().filter(|value| value.missing == 0);
    let faults = whole.filter_map(|value| {
        let rule = value.field.broken(value.number)?;
        let entry = Some(value.entry).filter(|entry| *entry != 0);
        Some(Fault { field: keyed::key(value.field), entry, rule })
    });
    faults.collect()
}

fn dont_care_set(reading: &Reading) -> Vec<Bits> {
    let given = &reading.given;
    let free = given.places.iter().filter(|place| place.field == Field::DontCare);
    let set = free.flat_map(|place| {
        given.bytes[..given.own].iter().enumerate().filter_map(|(byte, is)| {
            let set = is & place.span(byte)?.mask;
            let bits = (0..8).rev().filter(|bit| set >> bit & 1 == 1).collect();
            (set != 0).then_some(Bits { byte: byte + 1, bits })
        })
    });
    set.collect()
}
