//! What the packets of a generation of devices have of their own.

use super::field::{Field, Value};
use super::framing::Framing;
use super::names;
use crate::layout::{self, Place, Row};
use crate::picture::pulse::Panel;
use serde::Serialize;
use yarrowbell::packets::{Captured, Packets};

pub trait Generation: 'static {
    /// A packet as the library reads it.
    type Packet: Captured;
    type Field: Field;
    /// What scripts are told of a packet behind all else.
    type More: Serialize;

    const FRAMING: Framing;

    /// The commands of the paper.
    const COMMANDS: &'static [(u16, &'static str)];

    /// Packet number and command, in two bytes.
    const FRONT: Row<Self::Field>;

    /// All packets of a capture, as the library reads them.
    fn packets(capture: &[u8]) -> Packets<'_, Self::Packet>;

    fn read(packet: &Self::Packet) -> Read<Self::Field>;

    /// The name of a command, if the paper has its number.
    fn name(command: u16) -> Option<&'static str> {
        names::of(Self::COMMANDS, command)
    }

    /// The fields of a carried command, some of whose data there is; none of another command.
    fn data(command: u16, data: &[u8]) -> Option<Data<Self::Field>>;

    /// What stands behind the fields of a packet, which the library may have read.
    fn behind(values: &[Value<Self::Field>], read: Option<&Self::Packet>) -> Vec<String>;

    /// The same in a row.
    fn behind_in_row(packet: &Self::Packet) -> Vec<String>;

    fn more(read: Option<&Self::Packet>) -> Self::More;

    /// The pulse of a packet to be drawn, if it has one.
    fn pulse(packet: &Self::Packet) -> Option<Panel>;
}

/// What the library read.
pub struct Read<F> {
    pub packet: u8,
    pub command: u16,
    /// Whether its data is told in fields.
    pub carried: bool,
    /// Those fields, in the order of the data.
    pub values: Vec<Value<F>>,
}

/// The fields of a command's data: those that stand once, and those of so many points.
pub struct Data<F: 'static> {
    pub once: Row<F>,
    pub each: Row<F>,
    pub points: usize,
}

impl<F: Field> Data<F> {
    pub fn once(once: Row<F>) -> Data<F> {
        Data { once, each: &[], points: 0 }
    }

    pub fn places(&self) -> Vec<Place<F>> {
        layout::places(self.once, self.each, self.points, 8)
    }
}
