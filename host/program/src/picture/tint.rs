//! The tints of pulses, by their widths.

use plotters::style::RGBColor;

/// How many microseconds share a tint.
const STEP: u16 = 100;

/// From the shortest pulses to the longest, each darker than the one before; the lightest is still
/// darker than every band.
pub const TINTS: [RGBColor; 5] = [
    RGBColor(0x7D, 0x9F, 0xC8),
    RGBColor(0x5A, 0x7F, 0xAE),
    RGBColor(0x3B, 0x5F, 0x8E),
    RGBColor(0x21, 0x40, 0x6A),
    RGBColor(0x0B, 0x1D, 0x38),
];

/// The tint of a width in microseconds, by its place.
pub fn of(width: u16) -> usize {
    usize::from(width / STEP).min(TINTS.len() - 1)
}

/// The widths that a tint stands for. The longest pulse has the darkest tint.
pub fn widths(tint: usize) -> String {
    let least = tint * usize::from(STEP);
    let most = if tint + 1 == TINTS.len() { 500 } else { least + usize::from(STEP) - 1 };
    format!("{least}–{most} µs")
}
