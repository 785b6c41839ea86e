//! A packet for scripts.

use super::always;
use super::generation::Generation;
use super::keyed::{self, Keyed};
use super::reading::Reading;
use crate::failure::{Failure, Out};
use crate::{hex, json};
use serde::Serialize;

/// The keys. What there is not is null; packet number and command are 0, and there are no fields,
/// unless the answer is 0.
#[derive(Serialize)]
struct Line<M> {
    /// Where the packet begins, counted from 0, its bytes as they came, from start to stop or as far
    /// as they go, and how many bytes before it were passed over.
    at: Option<usize>,
    bytes: Option<String>,
    garbage: usize,
    /// What the library says: how many bytes it used, the answer's number and what it says.
    used: usize,
    answer: u8,
    answer_words: String,
    /// The packet number, the command's number, its name if the paper has one, and its data
    /// unstuffed.
    packet: u8,
    command: u16,
    name: Option<&'static str>,
    data: Option<String>,
    fields: Keyed<i32>,
    fields_words: Keyed<String>,
    /// What the packet says, unstuffed, and of a finished packet what would be right.
    checksum: Option<String>,
    checksum_should_be: Option<String>,
    length: Option<u16>,
    length_should_be: Option<usize>,
    /// Why it is refused, and the byte at which it is.
    reason: Option<String>,
    place: Option<usize>,
    #[serde(flatten)]
    more: M,
}

pub fn print<G: Generation>(reading: &Reading<G>, out: Out) -> Result<(), Failure> {
    let given = &reading.given;
    let packet = reading.found.packet.ok();
    let read = packet.as_ref().map(G::read);
    let values = read.as_ref().map_or(&[][..], |read| &read.values);
    let told = reading.answer_told();
    let (there, reason) = (given.checksum(), reading.reason.as_ref());
    let spelt = |checksum| always::spelt(checksum, there.size);
    let line = Line {
        at: given.start,
        bytes: given.start.map(|_| hex::spelt(given.packet())),
        garbage: given.passed().len(),
        used: reading.used(),
        answer: reading.answer().number(),
        answer_words: told.split_once(": ").map_or(told.clone(), |(_, words)| words.to_owned()),
        packet: read.as_ref().map_or(0, |read| read.packet),
        command: read.as_ref().map_or(0, |read| read.command),
        name: read.as_ref().and_then(|read| G::name(read.command)),
        data: read.as_ref().map(|_| hex::spelt(reading.found.data())),
        fields: keyed::numbers(values),
        fields_words: keyed::words(values),
        checksum: there.value().map(spelt),
        checksum_should_be: given.stop.map(|_| spelt(given.right_checksum())),
        length: given.length().value(),
        length_should_be: given.stop.map(|_| given.right_length()),
        reason: reason.map(|reason| reason.what.told(given.framing)),
        place: reason.and_then(|reason| reason.at),
        more: G::more(packet.as_ref()),
    };
    json::line(&line, out)
}
