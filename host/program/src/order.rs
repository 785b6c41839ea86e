//! The order of a session's lines: clocks do not fall, and nothing stands behind the end.

use thiserror::Error;

#[derive(Default)]
pub struct Order {
    clock: u32,
    ended: bool,
}

#[derive(Debug, Error)]
pub enum OutOfOrder {
    #[error("the clock goes back, from {from} to {to}")]
    Back { from: u32, to: u32 },
    #[error("{0:?} behind the word end")]
    BehindEnd(String),
    #[error("a line after the end")]
    AfterEnd,
}

impl Order {
    /// A line more.
    pub fn line(&self) -> Result<(), OutOfOrder> {
        if self.ended {
            return Err(OutOfOrder::AfterEnd);
        }
        Ok(())
    }

    /// The line's clock.
    pub fn at(&mut self, to: u32) -> Result<(), OutOfOrder> {
        if to < self.clock {
            return Err(OutOfOrder::Back { from: self.clock, to });
        }
        self.clock = to;
        Ok(())
    }

    /// The word end, and what stands behind it in its line.
    pub fn end(&mut self, behind: &[&str]) -> Result<(), OutOfOrder> {
        if let Some(word) = behind.first() {
            return Err(OutOfOrder::BehindEnd((*word).to_owned()));
        }
        self.ended = true;
        Ok(())
    }

    /// The clock of the last line.
    pub fn last(&self) -> u32 {
        self.clock
    }
}
