//! The records as bytes: "One byte of kind, then the body that the kind fixes, numbers little
//! endian".

/// "01: clock 4, Ident 1, answer 1".
#[inline(always)]
pub(crate) fn answer(clock: u32, ident: u8, answer: u8) -> [u8; 7] {
    let [a, b, c, d] = clock.to_le_bytes();
    [1, a, b, c, d, ident, answer]
}

/// "02: clock 4, channel 1 (1 to 8), width 2, current 1".
#[inline(always)]
pub(crate) fn pulse(clock: u32, channel: u8, width: u16, current: u8) -> [u8; 9] {
    let [a, b, c, d] = clock.to_le_bytes();
    let [low, high] = width.to_le_bytes();
    [2, a, b, c, d, channel, low, high, current]
}

/// "03: clock 4, cause 1".
#[inline(always)]
pub(crate) fn trip(clock: u32, cause: u8) -> [u8; 6] {
    let [a, b, c, d] = clock.to_le_bytes();
    [3, a, b, c, d, cause]
}

/// How many bytes a record of this kind has, its kind among them; 0 for an unknown kind.
#[inline(always)]
pub(super) fn length(kind: u8) -> usize {
    match kind {
        1 => 7,
        2 => 9,
        3 => 6,
        _ => 0,
    }
}
