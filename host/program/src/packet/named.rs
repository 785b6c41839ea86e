//! Values that the paper of a device has words for, as words of the command line.

use super::field::Field;
use crate::number;
use std::ops::RangeInclusive;
use thiserror::Error;

#[derive(Debug, Error)]
#[error("neither a good whole number nor a word for one, as {word}: {rule}")]
pub struct NotNamed {
    word: String,
    rule: &'static str,
}

/// The values that papers have words for: results, and all others.
const WORDED: RangeInclusive<i32> = -8..=11;

/// A field's value by its number, or by its word.
pub fn of<N: TryFrom<i32>>(field: impl Field) -> impl Fn(&str) -> Result<N, NotNamed> + Clone {
    let words = move || WORDED.filter_map(move |value| Some((value, field.spelt(value)?)));
    move |word| {
        let named = words().find(|(_, spelt)| spelt == word);
        let value = named.map_or_else(|| whole(word), |(value, _)| Some(value));
        value.and_then(|value| N::try_from(value).ok()).ok_or_else(|| {
            let word = words().next_back().map_or_else(String::new, |(_, spelt)| spelt);
            NotNamed { word, rule: field.rule() }
        })
    }
}

/// No plus is taken.
fn whole(word: &str) -> Option<i32> {
    match word.strip_prefix('-') {
        Some(digits) => number::whole::<i32>(digits).map(|number| -number),
        None => number::whole(word),
    }
}
