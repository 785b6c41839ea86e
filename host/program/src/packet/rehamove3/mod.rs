//! Packets of the RehaMove3: source 002.

pub mod amounts;
pub mod areas;
mod data;
mod field;
mod more;
mod names;
mod plot;
pub mod point;
pub mod points;
mod read;
mod write;

pub use write::Write;

use super::field::Value;
use super::framing::{Counted, Framing, Part};
use super::generation::{Data, Generation, Read};
use crate::layout::Row;
use crate::picture::pulse::Panel;
use field::Field;
use more::More;
use yarrowbell::rehamove3::{self, Packet, Packets, LONGEST_DATA, LONGEST_PACKET};

/// The generation of the RehaMove3.
pub struct Rehamove3;

impl Generation for Rehamove3 {
    type Packet = Packet;
    type Field = Field;
    type More = More;

    const FRAMING: Framing = Framing {
        checksum: Part { behind_start: 5, size: 2 },
        length: Part { behind_start: 1, size: 2 },
        counted: Counted::Whole,
        polynomial: 0x1021,
        highest: LONGEST_PACKET,
        longest_data: LONGEST_DATA,
        structure: "source 002, section 2.2",
        commands: "source 002, section 4",
    };

    const COMMANDS: &'static [(u16, &'static str)] = &names::COMMANDS;

    const FRONT: Row<Field> = &[(Field::PacketNumber, 6), (Field::CommandNumber, 10)];

    fn packets(capture: &[u8]) -> Packets<'_> {
        rehamove3::packets(capture)
    }

    fn read(packet: &Packet) -> Read<Field> {
        read::of(packet)
    }

    fn data(command: u16, data: &[u8]) -> Option<Data<Field>> {
        data::fields(command, data)
    }

    fn behind(values: &[Value<Field>], read: Option<&Packet>) -> Vec<String> {
        points::told(values, read)
    }

    fn behind_in_row(packet: &Packet) -> Vec<String> {
        points::in_row(packet)
    }

    fn more(read: Option<&Packet>) -> More {
        More::of(read)
    }

    fn pulse(packet: &Packet) -> Option<Panel> {
        plot::of_packet(packet)
    }
}
