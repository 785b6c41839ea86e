//! Packets of the RehaStim2: ScienceMode2, source 000.

mod data;
mod field;
mod names;
mod read;
mod write;

pub use write::Write;

use super::field::Value;
use super::framing::{Counted, Framing, Part};
use super::generation::{Data, Generation, Read};
use crate::layout::Row;
use crate::picture::pulse::Panel;
use field::Field;
use serde::Serialize;
use yarrowbell::rehastim2::{self, Packet, Packets, LONGEST_DATA};

/// The generation of the RehaStim2.
pub struct Rehastim2;

/// A packet has nothing but its fields.
#[derive(Serialize)]
pub struct Nothing {}

impl Generation for Rehastim2 {
    type Packet = Packet;
    type Field = Field;
    type More = Nothing;

    const FRAMING: Framing = Framing {
        checksum: Part { behind_start: 1, size: 1 },
        length: Part { behind_start: 3, size: 1 },
        counted: Counted::Same,
        polynomial: 0x07,
        highest: u8::MAX as usize,
        longest_data: LONGEST_DATA,
        structure: "source 000, table 5",
        commands: "source 000, section 4",
    };

    const COMMANDS: &'static [(u16, &'static str)] = &names::COMMANDS;

    const FRONT: Row<Field> = &[(Field::PacketNumber, 8), (Field::Command, 8)];

    fn packets(capture: &[u8]) -> Packets<'_> {
        rehastim2::packets(capture)
    }

    fn read(packet: &Packet) -> Read<Field> {
        read::of(packet)
    }

    fn data(command: u16, data: &[u8]) -> Option<Data<Field>> {
        data::fields(command, data).map(Data::once)
    }

    fn behind(_: &[Value<Field>], _: Option<&Packet>) -> Vec<String> {
        Vec::new()
    }

    fn behind_in_row(_: &Packet) -> Vec<String> {
        Vec::new()
    }

    fn more(_: Option<&Packet>) -> Nothing {
        Nothing {}
    }

    fn pulse(_: &Packet) -> Option<Panel> {
        None
    }
}
