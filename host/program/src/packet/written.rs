//! A written packet.

use super::generation::Generation;
use super::keyed::{self, Keyed};
use crate::failure::{Failure, Out};
use crate::{hex, json};
use serde::Serialize;

/// The keys for scripts.
#[derive(Serialize)]
struct Line<M> {
    bytes: String,
    packet: u8,
    command: u16,
    name: Option<&'static str>,
    data: String,
    fields: Keyed<i32>,
    fields_words: Keyed<String>,
    #[serde(flatten)]
    more: M,
}

/// Prints its bytes, or for scripts the packet as it is read again.
pub fn print<G: Generation>(bytes: &[u8], as_json: bool, out: Out) -> Result<(), Failure> {
    if !as_json {
        return Ok(writeln!(out, "{}", hex::spelt(bytes))?);
    }
    let found = G::packets(bytes).next().expect("the packet has bytes");
    let packet = found.packet.expect("what the library writes it reads");
    let read = G::read(&packet);
    let line = Line {
        bytes: hex::spelt(bytes),
        packet: read.packet,
        command: read.command,
        name: G::name(read.command),
        data: hex::spelt(found.data()),
        fields: keyed::numbers(&read.values),
        fields_words: keyed::words(&read.values),
        more: G::more(Some(&packet)),
    };
    json::line(&line, out)
}
