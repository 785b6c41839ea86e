//! The list that an Update is for: that of the last Init before it.

use crate::channels;
use thiserror::Error;
use yarrowbell::{Command, NotRead};

/// Sees all that is sent. An Init counts if the library reads it, and whether it stands in words or
/// in bytes.
#[derive(Default)]
pub struct List {
    /// The bytes of a frame that is not yet whole.
    open: Vec<u8>,
    bits: Option<u8>,
}

#[derive(Debug, Error)]
pub enum NotListed {
    #[error("an Update, and no Init before it lists channels")]
    None,
    #[error(
        "an Update for channels {}, where the last Init before it lists {}: no frame names its \
         channels, and this one would be for the listed ones",
        channels::spelt(*.named), channels::spelt(*.listed)
    )]
    Others { named: u8, listed: u8 },
    #[error(
        "an Update of {count} settings, where the last Init before it lists {}",
        channels::spelt(*.listed)
    )]
    Count { count: usize, listed: u8 },
}

impl List {
    pub fn see(&mut self, bytes: &[u8]) {
        for byte in bytes {
            if *byte >= 0x80 {
                self.open.clear();
            } else if self.open.is_empty() {
                continue;
            }
            self.open.push(*byte);
            match yarrowbell::read(&self.open, 1) {
                Err(NotRead::Unfinished) => continue,
                Ok(frame) => {
                    if let Command::Init(init) = frame.command {
                        self.bits = Some(init.stim);
                    }
                }
                Err(_) => (),
            }
            self.open.clear();
        }
    }

    /// The bits of its channels, if there is one.
    pub fn bits(&self) -> Option<u8> {
        self.bits
    }

    /// Whether an Update in words is for it.
    pub fn takes(&self, count: usize, named: Option<u8>) -> Result<(), NotListed> {
        let listed = self.bits.ok_or(NotListed::None)?;
        match named {
            Some(named) if named != listed => Err(NotListed::Others { named, listed }),
            None if count != listed.count_ones() as usize => {
                Err(NotListed::Count { count, listed })
            }
            _ => Ok(()),
        }
    }
}
