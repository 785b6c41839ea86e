//! The bytes given for a frame, against its layout.

use super::layout::{self, Place};
use crate::field::Field;
use crate::layout::length;
use yarrowbell::Command;

pub struct Given<'a> {
    pub bytes: &'a [u8],
    /// The fields of the frame that the first byte opens; none if it opens no frame.
    pub places: Vec<Place>,
    /// How many bytes are the frame's: those up to its end, or to a high byte before that. A low
    /// first byte is by itself.
    pub own: usize,
}

/// A field's value. Its lowest bits may be missing, and are taken as clear then.
pub struct Value {
    pub field: Field,
    /// Which listed channel's it is, counted from 1; 0 if it stands once.
    pub entry: usize,
    pub number: u16,
    pub missing: usize,
}

impl<'a> Given<'a> {
    /// There is at least one byte.
    pub fn new(bytes: &'a [u8], count: usize) -> Given<'a> {
        let first = bytes[0];
        let places = if first < 0x80 { Vec::new() } else { layout::places(first, count) };
        let later = bytes[1..].iter().take(length(&places).saturating_sub(1));
        let own = 1 + later.take_while(|byte| **byte < 0x80).count();
        Given { bytes, places, own }
    }

    pub fn is_frame(&self) -> bool {
        !self.places.is_empty()
    }

    /// How many bytes the frame has.
    pub fn length(&self) -> usize {
        length(&self.places)
    }

    pub fn is_whole(&self) -> bool {
        self.own == self.length()
    }

    /// The high byte that cuts the frame, if one does.
    pub fn cutting(&self) -> Option<u8> {
        self.bytes.get(self.own).copied().filter(|_| self.own < self.length())
    }

    /// The bytes of the frame, as far as they are there.
    pub fn frame(&self) -> &[u8] {
        &self.bytes[..self.own]
    }

    /// The bytes behind the frame, and behind what cuts it.
    pub fn behind(&self) -> &[u8] {
        &self.bytes[self.own + usize::from(self.cutting().is_some())..]
    }

    /// The check that the frame should have is its sum modulo this.
    pub fn modulus(&self) -> u32 {
        let check = self.places.iter().find(|place| place.field == Field::Check);
        1 << check.expect("every frame has a check").size()
    }

    /// The fields of which there are bits, in the order of the frame. The variables are the
    /// library's, if it read them.
    pub fn values(&self, read: Option<&Command>, count: usize) -> Vec<Value> {
        let mut read = read.map_or_else(Vec::new, |command| variables(command, count)).into_iter();
        let mut values = Vec::new();
        for place in &self.places {
            let (field, missing) = (place.field, place.missing(self.own));
            if field == Field::DontCare || missing == place.size() {
                continue;
            }
            let library = if field.is_variable() { read.next() } else { None };
            let number = library.unwrap_or_else(|| place.value(&self.bytes[..self.own]));
            values.push(Value { field, entry: place.entry, number, missing });
        }
        values
    }
}

/// The sum of the variables, and the check that the frame says.
pub fn sum_and_check(values: &[Value]) -> (u32, u32) {
    let numbers = |wanted: fn(Field) -> bool| -> u32 {
        let of = values.iter().filter(|value| wanted(value.field));
        of.map(|value| u32::from(value.number)).sum()
    };
    (numbers(Field::is_variable), numbers(|field| field == Field::Check))
}

/// The variables of a command in the order of its frame.
fn variables(command: &Command, count: usize) -> Vec<u16> {
    match command {
        Command::Init(init) => {
            let bytes = [init.factor, init.stim, init.lf, init.group].map(u16::from);
            bytes.into_iter().chain([init.main]).collect()
        }
        Command::Update(settings) => settings[..count]
            .iter()
            .flat_map(|setting| [setting.mode.into(), setting.width, setting.current.into()])
            .collect(),
        Command::Stop => Vec::new(),
        Command::Single(single) => vec![single.channel.into(), single.width, single.current.into()],
    }
}

#[cfg(test)]
mod tests {
    use super::*;
    use rand::rngs::SmallRng;
    use rand::{Rng, SeedableRng};
    use yarrowbell::{read, NotRead};

    /// A frame of random bits, of which only the check is right.
    fn frame(rng: &mut SmallRng, count: usize) -> Vec<u8> {
        let first = 0x80 | rng.gen_range(0..=0x7F);
        let length = length(&layout::places(first, count));
        let mut bytes: Vec<u8> = (1..length).map(|_| rng.gen_range(0..=0x7F)).collect();
        bytes.insert(0, first);
        let given = Given::new(&bytes, count);
        let check = sum_and_check(&given.values(None, count)).0 % given.modulus();
        // The check ends in bit 2 of an Init's first byte, else in bit 0.
        let (mask, shift) = if given.modulus() == 8 { (0x1C, 2) } else { (0x1F, 0) };
        bytes[0] = bytes[0] & !mask | (check as u8) << shift;
        bytes
    }

    /// The layout's values are those that the library reads, and the library refuses a frame
    /// exactly if one of them is not good.
    #[test]
    fn the_layout_is_the_librarys() {
        let mut rng = SmallRng::seed_from_u64(1);
        let mut read_well = [0; 4];
        for _ in 0..40_000 {
            let count = rng.gen_range(1..=8);
            let bytes = frame(&mut rng, count);
            let given = Given::new(&bytes, count);
            let values = given.values(None, count);
            let numbers: Vec<u16> = values
                .iter()
                .filter(|value| value.field.is_variable())
                .map(|value| value.number)
                .collect();
            let good = values.iter().all(|value| value.field.broken(value.number).is_none());
            match read(&bytes, count) {
                Ok(frame) => {
                    assert_eq!(numbers, variables(&frame.command, count), "{bytes:02X?}");
                    assert_eq!((good, frame.used), (true, given.length()), "{bytes:02X?}");
                    read_well[usize::from(bytes[0] >> 5 & 3)] += 1;
                }
                Err(why) => {
                    assert_eq!((good, why), (false, NotRead::NotGood), "{bytes:02X?}")
                }
            }
        }
        assert!(read_well.iter().all(|count| *count > 1_000), "{read_well:?}");
    }
}
