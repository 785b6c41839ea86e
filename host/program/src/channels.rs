//! Lists of channels, which are counted from 1, and their bits, of which bit 0 is channel 1's.

use crate::number;
use thiserror::Error;

/// How many channels there can be in a list.
pub const RULE: &str = "a list has 1 to 8 channels";

/// The bits of a list of channels.
#[derive(Clone, Copy)]
pub struct Channels(pub u8);

#[derive(Debug, Error)]
pub enum NotChannels {
    #[error("{0:?} is not a channel from 1 to 8, nor a range of them; {SPELLING}")]
    NotOne(String),
    #[error("{0:?} falls, and a range rises; {SPELLING}")]
    Falls(String),
    #[error("channel {0} stands in it twice")]
    Twice(u8),
}

const SPELLING: &str = "a list is spelt as 1,3 or 1-4,7";

pub fn parsed(list: &str) -> Result<Channels, NotChannels> {
    let mut bits = 0;
    for word in list.split(',') {
        let (first, last) = word.split_once('-').unwrap_or((word, word));
        let (Some(first), Some(last)) = (one(first), one(last)) else {
            return Err(NotChannels::NotOne(word.to_owned()));
        };
        if first > last {
            return Err(NotChannels::Falls(word.to_owned()));
        }
        for channel in first..=last {
            if bits & bit(channel) != 0 {
                return Err(NotChannels::Twice(channel));
            }
            bits |= bit(channel);
        }
    }
    Ok(Channels(bits))
}

/// A channel from 1 to 8.
pub fn one(word: &str) -> Option<u8> {
    number::whole(word).filter(|channel| (1..=8).contains(channel))
}

pub fn bit(channel: u8) -> u8 {
    1 << (channel - 1)
}

/// The channels of these bits, lowest first.
pub fn of(bits: u8) -> impl Iterator<Item = u8> {
    (1..=8).filter(move |channel| bits & bit(*channel) != 0)
}

/// The channels of these bits in a sentence.
pub fn spelt(bits: u8) -> String {
    match bits {
        0 => "none".to_owned(),
        _ => joined(bits, ", "),
    }
}

/// The channels of these bits as an argument.
pub fn argument(bits: u8) -> String {
    joined(bits, ",")
}

fn joined(bits: u8, with: &str) -> String {
    let channels: Vec<String> = of(bits).map(|channel| channel.to_string()).collect();
    channels.join(with)
}
