//! Outputs that are lent to a call on packets or sheets.

use crate::failure::{same, same_bytes};
use std::fmt::Debug;

/// What lies on either side of an output and must not be touched.
const GUARD: usize = 16;

/// An output of `room` bytes within a larger buffer, of which a call may change the first bytes, to
/// these. `told` tells what was compared, of which call.
pub struct Output<'a, F> {
    pub room: usize,
    pub first: &'a [u8],
    pub told: F,
}

impl<F: Fn(&str) -> String> Output<'_, F> {
    /// Calls, and compares the report, the output and what lies around it.
    ///
    /// A byte of the filling is nowhere equal to that of the other, so that a byte written stands out
    /// in one of them whatever it is.
    pub fn same<T: PartialEq + Debug>(
        &self,
        name: &str,
        other: bool,
        expected: T,
        call: impl FnOnce(&mut [u8]) -> T,
    ) -> Result<(), String> {
        let turned = if other { 0xFF } else { 0 };
        let whole = GUARD + self.room + GUARD;
        let mut found: Vec<u8> = (0..whole).map(|place| (place * 37 + 11) as u8 ^ turned).collect();
        let mut left = found.clone();
        left[GUARD..][..self.first.len()].copy_from_slice(self.first);
        let report = call(&mut found[GUARD..][..self.room]);
        let told = |what: &str| (self.told)(&format!("{what} of {name}"));
        same(&report, &expected, || told("the report"))?;
        let [out, left_out] = [&found, &left].map(|whole| &whole[GUARD..][..self.room]);
        same_bytes(out, left_out, || told("the output"))?;
        same_bytes(&found, &left, || told("the memory around the output"))
    }
}

#[cfg(test)]
mod tests {
    use super::Output;

    /// A call that is to write 7 and 8 to an output of four bytes, and to report that it wrote two.
    fn told(call: impl FnOnce(&mut [u8]) -> usize) -> Result<(), String> {
        let told = |what: &str| format!("{what}, room 4");
        Output { room: 4, first: &[7, 8], told }.same("a call", false, 2, call)
    }

    fn right(out: &mut [u8]) -> usize {
        out[..2].copy_from_slice(&[7, 8]);
        2
    }

    #[test]
    fn nothing_differs() {
        assert_eq!(told(right), Ok(()));
    }

    #[test]
    fn another_report() {
        let what = "the report of a call, room 4\n  3  should be  2";
        assert_eq!(told(|out| right(out) + 1), Err(what.to_owned()));
    }

    #[test]
    fn another_output() {
        for (place, what) in [(1, "1 is 09 and should be 08"), (2, "2 is 09 and should be A5")] {
            let call = |out: &mut [u8]| {
                let report = right(out);
                out[place] = 9;
                report
            };
            assert_eq!(told(call), Err(format!("the output of a call, room 4: byte {what}")));
        }
    }
}
