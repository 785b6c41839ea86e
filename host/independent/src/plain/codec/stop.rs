//! Stop: "Check 5, which is 0".

use super::{first, Wrote, STOP};
use crate::plain::answer::OUTPUT_TOO_SHORT;

pub(super) const LENGTH: usize = 1;

#[inline(never)]
pub fn write_stop(out: &mut [u8]) -> Wrote {
    let Some(out) = out.first_mut() else {
        return Wrote::refused(OUTPUT_TOO_SHORT);
    };
    *out = first(STOP, 0);
    Wrote::all(LENGTH)
}
