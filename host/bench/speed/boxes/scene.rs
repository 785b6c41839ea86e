//! A box as it stands before the calls that are measured.

use super::rings::laid;
use crate::ring::Lent;
use crate::MOST;
use independent::plain::machine::{BoxRecord, Profile};
use independent::{check, compose, Command, Init, Part, Setting, Single};

/// A box, and the buffer that its ring lies in.
#[derive(Clone, Debug)]
pub struct Scene {
    pub record: BoxRecord,
    pub buffer: Vec<u8>,
    pub at: Part,
}

/// A list of all channels: a cycle is 250 ticks, in which each channel has one pulse.
pub const LIST: Init =
    Init { n_factor: 0, channel_stim: 255, channel_lf: 0, group_time: 9, main_time: 48 };

/// The ticks of one cycle of the list.
pub const CYCLE: usize = 250;

/// What each channel of the list is set to.
const SETTING: Setting = Setting { mode: 0, pulse_width: 300, pulse_current: 60 };

/// Limits that the list keeps, with the longest watchdog.
const PROFILE: Profile = Profile {
    currents: [100; 8],
    widths: [400; 8],
    charge: 40_000,
    shortest: 30,
    watchdog: 600_000,
};

/// The frame of a good Update of all channels.
pub fn update() -> Vec<u8> {
    frame(&Command::Update([SETTING; 8]))
}

/// The frame of a Single.
pub fn single(channel_number: u8, pulse_current: u8) -> Vec<u8> {
    frame(&Command::Single(Single { channel_number, pulse_width: 300, pulse_current }))
}

/// A frame with its right check.
pub fn frame(command: &Command) -> Vec<u8> {
    compose(command, 8, check(command))
}

impl Scene {
    /// A fresh box, its ring filled with records of these kinds.
    pub fn idle(kinds: &[u8]) -> Scene {
        Scene::after(&[], 0, kinds)
    }

    /// A box whose list has run through its first cycle, so that the Update rules.
    pub fn running(kinds: &[u8]) -> Scene {
        let bytes = [frame(&Command::Init(LIST)), update()].concat();
        Scene::after(&bytes, CYCLE, kinds)
    }

    /// A box after a Single that is over a limit.
    pub fn tripped(kinds: &[u8]) -> Scene {
        Scene::after(&single(0, 127), 0, kinds)
    }

    /// Whether the ring has so little room that the calls drop records and write over them.
    pub fn is_full(&self) -> bool {
        MOST - self.record.ring.used < 16
    }

    /// A box that was given these bytes and ticks before its ring was filled anew.
    fn after(bytes: &[u8], ticks: usize, kinds: &[u8]) -> Scene {
        let Lent { buffer, at, ring } = laid(kinds);
        let mut record = BoxRecord::new(PROFILE, MOST).expect("a good profile and capacity");
        let mut used = vec![0; MOST];
        for &byte in bytes {
            record.byte(&mut used, at, byte);
        }
        for _ in 0..ticks {
            record.tick(&mut used, at);
        }
        record.ring = ring;
        Scene { record, buffer, at }
    }
}
