//! Intervals: coded, or in milliseconds.

use crate::number;
use crate::packet::field::Field as _;
use crate::packet::rehastim2::field::Field;
use thiserror::Error;

#[derive(Debug, Error)]
pub enum NotInterval {
    #[error("no interval, in ms as 8.5ms or coded as 14: {0}")]
    Outside(&'static str),
    #[error("no interval that can be coded: {} is coded {below}, {} is coded {above}", .ms[0], .ms[1])]
    Between { below: u64, above: u64, ms: [String; 2] },
}

/// Millionths of a millisecond, in which milliseconds are given.
const MILLISECOND: u64 = 1_000_000;

/// "· 0.5 ms".
const STEP: u64 = MILLISECOND / 2;

/// "[0, 255] · 0.5 ms + 1.5" in its coded form.
pub fn inter_pulse(word: &str) -> Result<u8, NotInterval> {
    coded(word, Field::InterPulseInterval, 3 * STEP)
}

/// "[0, 2048] · 0.5 ms + 1 ms" in its coded form.
pub fn main_stimulation(word: &str) -> Result<u16, NotInterval> {
    coded(word, Field::MainStimulationInterval, 2 * STEP)
}

fn coded<N: TryFrom<u64>>(word: &str, field: Field, least: u64) -> Result<N, NotInterval> {
    let outside = || NotInterval::Outside(field.rule());
    let code = match word.strip_suffix("ms") {
        None => number::whole(word).ok_or_else(outside)?,
        Some(number) => {
            let time = number::millionths(number).ok_or_else(outside)?;
            let above_least = time.checked_sub(least).ok_or_else(outside)?;
            let (below, above) = (above_least / STEP, above_least.div_ceil(STEP));
            if below != above {
                return Err(between(field, below, above, least).unwrap_or_else(outside));
            }
            below
        }
    };
    N::try_from(code).map_err(|_| outside())
}

/// An interval between these two, if both are good.
fn between(field: Field, below: u64, above: u64, least: u64) -> Option<NotInterval> {
    field.broken(i32::try_from(above).ok()?).is_none().then(|| {
        let ms = [below, above].map(|code| {
            let tenths = (code * STEP + least) * 10 / MILLISECOND;
            format!("{}.{}ms", tenths / 10, tenths % 10)
        });
        NotInterval::Between { below, above, ms }
    })
}
