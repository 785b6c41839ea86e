//! Reasons in words.

use super::{Reason, What};
use crate::hex;
use crate::packet::always;
use crate::packet::field::{Field, Value};
use crate::packet::framing::{Counted, Framing};
use crate::packet::stuffing::{stuffed, START, STOP, STUFFING};
use crate::words::{counted, thousands};

impl<F: Field> Reason<F> {
    /// With its place before it.
    pub fn told(&self, framing: &Framing) -> String {
        let what = self.what.told(framing);
        self.at.map_or(what.clone(), |at| format!("byte {at}: {what}"))
    }
}

impl<F: Field> What<F> {
    pub fn told(&self, framing: &Framing) -> String {
        match self {
            What::NoStart => {
                "there is no start byte, an F0 that does not stand straight after 81".to_owned()
            }
            What::NoStop => {
                let no_stop = "the packet that begins here has no stop byte";
                format!("{no_stop}, a 0F that does not stand straight after 81")
            }
            What::NoChecksum => instead("the stop byte", "the checksum"),
            What::BareChecksum(is) => bare(*is, "checksum"),
            What::Checksum { has, right } => {
                let size = framing.checksum.size;
                let [has, right] =
                    [*has, *right].map(|sum| both(&always::spelt(sum, size), sum, size));
                format!("the checksum is {has}, and {right} would be right")
            }
            What::NoLength => instead("the stop byte", "the length"),
            What::BareLength(is) => bare(*is, "length"),
            What::Length { has, right } => {
                let length = |number: u16| both(&number.to_string(), number, framing.length.size);
                format!(
                    "the length is {}, and {}",
                    length(*has),
                    right_length(*right, framing, length)
                )
            }
            What::Pair(second) => {
                let pairs = [START, STOP, STUFFING].map(|byte| hex::spelt(&stuffed(byte)));
                let [start, stop, stuffing] = pairs;
                let pair = hex::spelt(&[STUFFING, *second]);
                format!("{pair} is no stuffed pair: {start}, {stop} and {stuffing} are")
            }
            What::Bare(byte) => {
                let right = hex::spelt(&stuffed(*byte));
                format!("{byte:02X} is not stuffed, and {right} would be right")
            }
            What::NoPacketNumber => instead("the stop byte", "the packet number"),
            What::NoCommand => instead("the stop byte", "the command"),
            What::TooMuch(has) => format!(
                "the data has {has} bytes, and at most {} would be right ({})",
                framing.longest_data, framing.structure
            ),
            What::Data { of, has, right } => {
                let has = counted(*has as u64, "data byte");
                format!("{of} has {has}, and {right} would be right ({})", framing.commands)
            }
            What::Value(Value { field, point, number }) => {
                let of = match point {
                    0 => String::new(),
                    point => format!(" of point {point}"),
                };
                let rule =
                    field.broken(*number).map_or_else(String::new, |rule| format!(": {rule}"));
                format!("{} {number}{of} is not good{rule}", field.name())
            }
        }
    }
}

/// What is said of the length that would be right.
fn right_length(right: usize, framing: &Framing, length: impl Fn(u16) -> String) -> String {
    match u16::try_from(right) {
        Ok(number) if right <= framing.highest => format!("{} would be right", length(number)),
        _ => {
            let most = match framing.counted {
                Counted::Same => String::new(),
                Counted::Whole => {
                    let most = thousands(framing.highest as u64);
                    format!(": a packet has at most {most} ({})", framing.structure)
                }
            };
            format!("none is right for {}{most}", counted(right as u64, "byte"))
        }
    }
}

fn instead(is: &str, of: &str) -> String {
    format!("{is} stands where {of} would")
}

fn bare(is: u8, of: &str) -> String {
    instead(&format!("{is:02X}"), &format!("81, the stuffing byte of the {of},"))
}

/// A number that is always stuffed, spelt plain, and stuffed.
fn both(spelt: &str, number: u16, size: usize) -> String {
    format!("{spelt} (stuffed {})", hex::spelt(&always::pairs(number, size)))
}
