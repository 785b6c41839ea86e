//! Frames: each kind read and written by the call of that kind.

mod read;
mod write;

use crate::meter::Meter;
use crate::table::Table;
use independent::{Init, Setting, Single};

/// How many channels the longest Update has.
const ALL: usize = 8;

const INIT: Init =
    Init { n_factor: 3, channel_stim: 255, channel_lf: 170, group_time: 9, main_time: 1998 };

const SETTING: Setting = Setting { mode: 2, pulse_width: 350, pulse_current: 85 };

const SINGLE: Single = Single { channel_number: 5, pulse_width: 300, pulse_current: 60 };

pub fn tables(meter: &mut Meter) -> Vec<Table> {
    vec![read::table(meter), write::table(meter)]
}

/// The settings of an Update for this many channels.
fn settings(count: usize) -> [Setting; ALL] {
    std::array::from_fn(|channel| if channel < count { SETTING } else { Setting::default() })
}
