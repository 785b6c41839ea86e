//! How much a unit did.

use crate::course::{Event, What};
use std::fmt;

#[derive(Clone, Default)]
pub struct Totals {
    pub commands: usize,
    pub pulses: usize,
    pub trips: usize,
}

impl Totals {
    pub fn add(&mut self, events: &[Event]) {
        for event in events {
            match event.what {
                What::Decided(_) => self.commands += 1,
                What::Pulse(_) => self.pulses += 1,
                What::Trip(_) => self.trips += 1,
                What::Stray(_) | What::Dropped(_) | What::Unfinished(_) => (),
            }
        }
    }
}

impl fmt::Display for Totals {
    fn fmt(&self, out: &mut fmt::Formatter) -> fmt::Result {
        let Totals { commands, pulses, trips } = self;
        write!(out, "commands {commands}, pulses {pulses}, trips {trips}")
    }
}
