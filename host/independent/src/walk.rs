//! The walk along a row of a table and the bits of a byte. Bits become numbers as sums of powers of
//! two, and numbers bits by division.

use crate::tables::{Bit, Row, Variable};

/// A value for each variable.
#[derive(Clone, Copy, Debug, Default)]
pub struct Values([u16; Variable::COUNT]);

impl Values {
    pub fn get(&self, variable: Variable) -> u16 {
        self.0[variable as usize]
    }

    pub fn set(&mut self, variable: Variable, value: u16) {
        self.0[variable as usize] = value;
    }

    /// "Sum of all logical variables" (tables 4, 6, 8 and 10): all but Check itself.
    pub fn sum(&self) -> u32 {
        let all: u32 = self.0.iter().map(|&value| u32::from(value)).sum();
        all - u32::from(self.get(Variable::Check))
    }
}

/// What bit 7 to bit 0 of a byte count.
const WEIGHTS: [u8; 8] = [128, 64, 32, 16, 8, 4, 2, 1];

fn bits(byte: u8) -> [bool; 8] {
    WEIGHTS.map(|weight| byte / weight % 2 == 1)
}

fn byte(bits: [bool; 8]) -> u8 {
    WEIGHTS.iter().zip(bits).map(|(weight, set)| if set { *weight } else { 0 }).sum()
}

fn power(bit: u8) -> u16 {
    2u16.pow(u32::from(bit))
}

/// Whether the byte has every fixed bit of the row.
pub fn fits(row: &Row, given: u8) -> bool {
    row.iter().zip(bits(given)).all(|(bit, set)| match bit {
        Bit::Fixed(value) => *value == set,
        Bit::Of(..) | Bit::Free => true,
    })
}

/// Adds to the variables the bits that the byte has of them.
pub fn take(row: &Row, given: u8, values: &mut Values) {
    for (bit, set) in row.iter().zip(bits(given)) {
        if let (Bit::Of(variable, number), true) = (*bit, set) {
            values.set(variable, values.get(variable) + power(number));
        }
    }
}

/// The byte of these variables, the bits without a meaning clear.
pub fn give(row: &Row, values: &Values) -> u8 {
    byte(row.map(|bit| match bit {
        Bit::Fixed(value) => value,
        Bit::Of(variable, number) => values.get(variable) / power(number) % 2 == 1,
        Bit::Free => false,
    }))
}

/// The bits of the row without a meaning.
pub fn free(row: &Row) -> u8 {
    byte(row.map(|bit| bit == Bit::Free))
}
