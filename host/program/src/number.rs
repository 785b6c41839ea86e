//! Whole numbers as words of the command line. One that its type can hold is the library's to judge;
//! of any other the same range is said.

use crate::channels;
use crate::field::Field;
use std::ops::RangeInclusive;
use std::str::FromStr;
use thiserror::Error;
use yarrowbell::Guard;

#[derive(Debug, Error)]
pub enum NotNumber {
    #[error("not a whole number from {least} to {most}")]
    Outside { least: u64, most: u64 },
    #[error("not a good whole number: {0}")]
    Broken(&'static str),
}

pub fn clock(word: &str) -> Result<u32, NotNumber> {
    whole(word).ok_or(outside(0..=u32::MAX.into()))
}

pub fn count(word: &str) -> Result<u64, NotNumber> {
    whole(word).ok_or(outside(0..=u64::MAX))
}

/// A ring's capacity.
pub fn capacity(word: &str) -> Result<usize, NotNumber> {
    let (least, most) = Guard::CAPACITIES.into_inner();
    whole(word).ok_or(outside(least as u64..=most as u64))
}

/// Where the records of a ring begin: a byte of its part.
pub fn start(word: &str) -> Result<usize, NotNumber> {
    whole(word).ok_or(outside(0..=*Guard::CAPACITIES.end() as u64 - 1))
}

/// How many bytes the records of a ring have.
pub fn used(word: &str) -> Result<usize, NotNumber> {
    whole(word).ok_or(outside(0..=*Guard::CAPACITIES.end() as u64))
}

/// A number of listed channels.
pub fn listed(word: &str) -> Result<u8, NotNumber> {
    whole(word).ok_or(NotNumber::Broken(channels::RULE))
}

/// The value of a field that has a rule.
pub fn of<N: FromStr + 'static>(field: Field) -> impl Fn(&str) -> Result<N, NotNumber> + Clone {
    ruled(field.rule().expect("the field has a rule"))
}

/// A value that has this rule.
pub fn ruled<N: FromStr + 'static>(
    rule: &'static str,
) -> impl Fn(&str) -> Result<N, NotNumber> + Clone {
    move |word| whole(word).ok_or(NotNumber::Broken(rule))
}

/// No sign is taken, not even a plus.
pub fn whole<N: FromStr>(word: &str) -> Option<N> {
    word.parse().ok().filter(|_| word.bytes().all(|byte| byte.is_ascii_digit()))
}

/// Millionths of a number without a sign, which has at most six digits behind its point.
pub fn millionths(word: &str) -> Option<u64> {
    let (ones, part) = word.split_once('.').unwrap_or((word, "0"));
    let part: u64 =
        whole::<u64>(part).filter(|_| part.len() <= 6)? * 10_u64.pow(6 - part.len() as u32);
    whole::<u64>(ones)?.checked_mul(1_000_000)?.checked_add(part)
}

fn outside(range: RangeInclusive<u64>) -> NotNumber {
    NotNumber::Outside { least: *range.start(), most: *range.end() }
}
