//! The tables of bits against the tables of variables (source 003, tables 4, 6, 8 and 10), which
//! say how many bits each variable has.

use independent::Variable::*;
use independent::{Bit, Layout, Row, Variable, LAYOUTS};

const INIT: [(Variable, u8); 6] =
    [(Check, 3), (NFactor, 3), (ChannelStim, 8), (ChannelLf, 8), (GroupTime, 5), (MainTime, 11)];
const UPDATE_ONCE: [(Variable, u8); 1] = [(Check, 5)];
const UPDATE_PER_CHANNEL: [(Variable, u8); 3] = [(Mode, 2), (PulseWidth, 9), (PulseCurrent, 7)];
const STOP: [(Variable, u8); 1] = [(Check, 5)];
const SINGLE: [(Variable, u8); 4] =
    [(Check, 5), (ChannelNumber, 3), (PulseWidth, 9), (PulseCurrent, 7)];

/// Every variable stands in the rows with each of its bits once, the highest first.
fn has(rows: &[Row], variables: &[(Variable, u8)]) {
    let found: Vec<Bit> =
        rows.iter().flatten().copied().filter(|bit| matches!(bit, Bit::Of(..))).collect();
    let expected: Vec<Bit> = variables
        .iter()
        .flat_map(|(variable, bits)| (0..*bits).rev().map(|bit| Bit::Of(*variable, bit)))
        .collect();
    assert_eq!(found, expected);
}

#[test]
fn variables_have_all_their_bits() {
    let [init, update, stop, single] = &LAYOUTS;
    has(init.once, &INIT);
    has(update.once, &UPDATE_ONCE);
    has(update.per_channel, &UPDATE_PER_CHANNEL);
    has(stop.once, &STOP);
    has(single.once, &SINGLE);
    assert!([init, stop, single].iter().all(|layout| layout.per_channel.is_empty()));
}

/// Section 5.2: bit 7 is set in the first byte alone. Table 3: Ident follows it there.
#[test]
fn fixed_bits() {
    for (ident, layout) in LAYOUTS.iter().enumerate() {
        assert_eq!(layout.kind as usize, ident);
        for (place, (row, _)) in layout.rows(8).enumerate() {
            let fixed: Vec<Bit> =
                row.iter().copied().filter(|bit| matches!(bit, Bit::Fixed(_))).collect();
            let expected = if place == 0 {
                vec![Bit::Fixed(true), Bit::Fixed(ident / 2 == 1), Bit::Fixed(ident % 2 == 1)]
            } else {
                vec![Bit::Fixed(false)]
            };
            assert_eq!(fixed, expected);
            assert_eq!(row[..fixed.len()], expected);
        }
    }
}

/// Document 01: 6 bytes, 1 and 3 for each listed channel, 1, and 4.
#[test]
fn lengths() {
    for count in 1..=8 {
        let length = |layout: &Layout| layout.rows(count).count();
        assert_eq!(LAYOUTS.each_ref().map(length), [6, 1 + 3 * count, 1, 4]);
    }
}

/// The modulus is what Check can hold.
#[test]
fn moduli() {
    for layout in &LAYOUTS {
        let check = |bit: &&Bit| matches!(bit, Bit::Of(Check, _));
        let bits = layout.once.iter().flatten().filter(check).count();
        assert_eq!(layout.modulus, 2u32.pow(bits as u32));
    }
}
