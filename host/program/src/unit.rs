//! What a session is played on.

use yarrowbell::{Guard, Told};

/// A byte or a tick.
#[derive(Clone, Copy, Debug, PartialEq, Eq)]
pub enum Call {
    Byte(u8),
    Tick,
}

/// The proved unit, or one of the wrong ones of the lessons.
pub trait Unit {
    /// The call as it reaches the box: the byte may have been changed on its way.
    fn reaches(&self, call: Call) -> Call {
        call
    }

    fn call(&mut self, call: Call) -> Told;

    /// The box that it has, or has left of it.
    fn guard(&self) -> &Guard;
}

impl Unit for Guard {
    fn call(&mut self, call: Call) -> Told {
        match call {
            Call::Byte(byte) => self.byte(byte),
            Call::Tick => self.tick().expect("no session goes on behind the clock's end"),
        }
    }

    fn guard(&self) -> &Guard {
        self
    }
}
