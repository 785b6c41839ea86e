//! Times in a script: clocks, or milliseconds.

use crate::number;
use thiserror::Error;

#[derive(Debug, Error)]
#[error(
    "{0:?} is no time: a clock from 0 to 4294967295, or milliseconds as 12.5ms from 0 to 429496729.5"
)]
pub struct NotTime(String);

/// The clock of the time that stands first in these words, and the words behind it.
pub fn taken<'a, 'b>(words: &'a [&'b str]) -> Result<(u32, &'a [&'b str]), NotTime> {
    let (time, spelt, rest) = match words {
        [number, "ms", rest @ ..] => (milliseconds(number), format!("{number} ms"), rest),
        [word, rest @ ..] => match word.strip_suffix("ms") {
            Some(number) => (milliseconds(number), (*word).to_owned(), rest),
            None => (number::whole(word), (*word).to_owned(), rest),
        },
        [] => (None, String::new(), words),
    };
    time.map(|clock| (clock, rest)).ok_or(NotTime(spelt))
}

/// With at most one digit behind the point.
fn milliseconds(number: &str) -> Option<u32> {
    let (whole, tenths) = number.split_once('.').unwrap_or((number, "0"));
    let tenths: u32 = number::whole(tenths).filter(|_| tenths.len() == 1)?;
    number::whole::<u32>(whole)?.checked_mul(10)?.checked_add(tenths)
}
