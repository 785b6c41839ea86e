//! The modules of the stimulator.

use std::fmt;
use yarrowbell::raw::Core;

/// A has channels 1 to 4, B has 5 to 8.
#[derive(Clone, Copy, Debug, PartialEq, Eq)]
pub enum Module {
    A,
    B,
}

impl Module {
    pub fn of(channel: u8) -> Module {
        if channel <= 4 {
            Module::A
        } else {
            Module::B
        }
    }

    /// How many of the listed channels it has.
    pub fn count(self, listed: u8) -> u32 {
        match self {
            Module::A => (listed & 0x0F).count_ones(),
            Module::B => (listed >> 4).count_ones(),
        }
    }

    /// How many ticks its hold still takes.
    pub fn hold(self, core: &Core) -> u8 {
        match self {
            Module::A => core.holda,
            Module::B => core.holdb,
        }
    }
}

/// The larger of the modules' channel counts.
pub fn larger_count(listed: u8) -> u32 {
    Module::A.count(listed).max(Module::B.count(listed))
}

impl fmt::Display for Module {
    fn fmt(&self, out: &mut fmt::Formatter) -> fmt::Result {
        out.write_str(match self {
            Module::A => "module A (channels 1 to 4)",
            Module::B => "module B (channels 5 to 8)",
        })
    }
}
