//! The modes of the stimulation.

use crate::packets::named;

/// A stimulation mode, 0 to 2 (source 000, section 4.2); no other is read or written.
#[derive(Clone, Copy, Debug, PartialEq, Eq)]
pub struct StimulationMode(pub u8);

named! {
    StimulationMode, none: "no stimulation mode",
    0 START_MODE "Start mode"
    1 STIMULATION_INITIALIZED "Stimulation initialized"
    2 STIMULATION_STARTED "Stimulation started"
}
