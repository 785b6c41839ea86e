//! The packets of a capture, one row each.

use crate::failure::{Failure, Out};
use crate::hex;
use crate::packet::field::Field;
use crate::packet::fields;
use crate::packet::generation::Generation;
use crate::packet::reading::Reading;
use crate::packet::rows::{first_bytes, passed};
use crate::wrapping::{together, wrapped};
use yarrowbell::packets::NotRead;

/// How wide a line is.
const WIDTH: usize = 100;

/// The places of a packet are so many digits wide.
pub struct Table {
    at: usize,
}

impl Table {
    pub fn of(bytes: &[u8]) -> Table {
        Table { at: bytes.len().to_string().len().max(4) }
    }

    pub fn head(&self) -> String {
        self.left("at", "bytes", "number") + "packet"
    }

    /// What was passed over, and the packet.
    pub fn print<G: Generation>(&self, reading: &Reading<G>, out: Out) -> Result<(), Failure> {
        let given = &reading.given;
        if !given.passed().is_empty() {
            self.row(given.from(), given.passed().len(), "", &passed(given), out)?;
        }
        let Some(start) = given.start else { return Ok(()) };
        let (number, what) = match reading.found.packet {
            Ok(packet) => {
                let what = good::<G>(&packet, reading.found.data());
                (G::read(&packet).packet.to_string(), together(&what))
            }
            Err(NotRead::Unfinished) => {
                (String::new(), format!("unfinished at the end: {}", first_bytes(given.packet())))
            }
            Err(why) => (String::new(), format!("refused, {why}")),
        };
        self.row(start, given.packet().len(), &number, &what, out)?;
        match &reading.reason {
            Some(reason) if given.stop.is_some() => {
                self.lines(&reason.told(given.framing), "  ", "", out)
            }
            _ => Ok(()),
        }
    }

    fn row(
        &self,
        at: usize,
        bytes: usize,
        number: &str,
        what: &str,
        out: Out,
    ) -> Result<(), Failure> {
        let left = self.left(&at.to_string(), &bytes.to_string(), number);
        self.lines(what, "", &left, out)
    }

    /// A text in lines, the first of which has this at its left.
    fn lines(&self, text: &str, indent: &str, left: &str, out: Out) -> Result<(), Failure> {
        let width = self.left("", "", "").len();
        let mut left = left;
        for line in wrapped(text, indent, WIDTH - width) {
            writeln!(out, "{left:width$}{line}")?;
            left = "";
        }
        Ok(())
    }

    fn left(&self, at: &str, bytes: &str, number: &str) -> String {
        format!("{at:>0$}  {bytes:>5}  {number:>6}  ", self.at)
    }
}

/// A command with its fields, or with its data.
fn good<G: Generation>(packet: &G::Packet, data: &[u8]) -> String {
    let read = G::read(packet);
    let name = G::name(read.command);
    if !read.carried {
        let name = name.map_or_else(String::new, |name| format!("{name}, "));
        let data = if data.is_empty() { "no data".to_owned() } else { hex::spelt(data) };
        return format!("{name}command {}: {data}", read.command);
    }
    let told = fields::once(&read.values)
        .map(|value| format!("{} {}", value.field.name(), fields::told(value, 0)));
    let told: Vec<String> = told.chain(G::behind_in_row(packet)).collect();
    let name = name.unwrap_or_default();
    if told.is_empty() {
        return name.to_owned();
    }
    format!("{name}: {}", told.join("; "))
}
