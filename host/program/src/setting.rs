//! One channel's setting of an Update, as a word of the command line.

use crate::channels;
use crate::field::Field;
use crate::number::{self, NotNumber};
use std::fmt;
use std::str::FromStr;
use thiserror::Error;
use yarrowbell::Setting;

/// How a setting is spelt.
pub const SPELLING: &str = "[CHANNEL:]MODE:WIDTH:CURRENT";

/// A setting, and its channel if that is named.
#[derive(Clone, Copy)]
pub struct Entry {
    pub channel: Option<u8>,
    pub setting: Setting,
}

#[derive(Debug, Error)]
pub enum NotSetting {
    #[error("not spelt as {SPELLING}")]
    Spelling,
    #[error("the channel {0:?} is not one from 1 to 8")]
    Channel(String),
    #[error("the {name} {word:?} is {why}")]
    Number { name: &'static str, word: String, why: NotNumber },
}

impl fmt::Display for Entry {
    fn fmt(&self, out: &mut fmt::Formatter) -> fmt::Result {
        let Setting { mode, width, current } = self.setting;
        if let Some(channel) = self.channel {
            write!(out, "{channel}:")?;
        }
        write!(out, "{mode}:{width}:{current}")
    }
}

pub fn parsed(word: &str) -> Result<Entry, NotSetting> {
    let parts: Vec<&str> = word.split(':').collect();
    let (channel, [mode, width, current]) = match parts[..] {
        [mode, width, current] => (None, [mode, width, current]),
        [channel, mode, width, current] => (Some(channel), [mode, width, current]),
        _ => return Err(NotSetting::Spelling),
    };
    let channel =
        channel.map(|word| channels::one(word).ok_or_else(|| NotSetting::Channel(word.to_owned())));
    Ok(Entry {
        channel: channel.transpose()?,
        setting: Setting {
            mode: value("mode", mode, Field::Mode)?,
            width: value("width", width, Field::PulseWidth)?,
            current: value("current", current, Field::PulseCurrent)?,
        },
    })
}

fn value<N: FromStr + 'static>(
    name: &'static str,
    word: &str,
    field: Field,
) -> Result<N, NotSetting> {
    let at_fault = |why| NotSetting::Number { name, word: word.to_owned(), why };
    number::of(field)(word).map_err(at_fault)
}
