//! Where the fields of each frame lie: the one description from which its bits are shown and its
//! values are put together.

use crate::field::Field::{self, *};
use crate::layout::{self, Row};

/// A field at its place in a frame, over the low seven bits of each byte.
pub type Place = layout::Place<Field>;

/// The frames by their Ident: the fields that stand once, and those of each listed channel.
const FRAMES: [(Row<Field>, Row<Field>); 4] = [
    (
        &[
            (Ident, 2),
            (Check, 3),
            (NFactor, 3),
            (ChannelStim, 8),
            (ChannelLf, 8),
            (DontCare, 2),
            (GroupTime, 5),
            (MainTime, 11),
        ],
        &[],
    ),
    (&[(Ident, 2), (Check, 5)], &[(Mode, 2), (DontCare, 3), (PulseWidth, 9), (PulseCurrent, 7)]),
    (&[(Ident, 2), (Check, 5)], &[]),
    (
        &[
            (Ident, 2),
            (Check, 5),
            (ChannelNumber, 3),
            (DontCare, 2),
            (PulseWidth, 9),
            (PulseCurrent, 7),
        ],
        &[],
    ),
];

/// The places of the frame that a first byte opens, for this number of listed channels.
pub fn places(first: u8, count: usize) -> Vec<Place> {
    let (once, each) = FRAMES[usize::from(first >> 5 & 3)];
    layout::places(once, each, count, 7)
}
