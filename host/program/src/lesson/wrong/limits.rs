//! A unit that keeps its old settings after answer 9.

use crate::unit::{Call, Unit};
use yarrowbell::{Answer, Guard, Told};

pub fn call(unit: &mut Guard, call: Call) -> Told {
    let old = unit.clone();
    let told = unit.call(call);
    if told.answer == Answer::OverLimit {
        // It was refused, so nothing may change?
        *unit = old;
        return Told { trip: None, ..told };
    }
    told
}
