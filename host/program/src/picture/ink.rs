//! What every part of the picture draws with. Lightness alone tells the colours apart, for it is
//! printed in grey as well.

use plotters::coord::Shift;
use plotters::prelude::*;
use plotters::style::text_anchor::{HPos, Pos, VPos};
use std::io;

pub type Area<'a> = DrawingArea<SVGBackend<'a>, Shift>;
pub type Failed = DrawingAreaErrorKind<io::Error>;
pub type Drawn = Result<(), Failed>;

pub const BLACK: RGBColor = RGBColor(0x1A, 0x1A, 0x1A);
pub const GREY: RGBColor = RGBColor(0x59, 0x59, 0x59);
pub const RULE: RGBColor = RGBColor(0x9A, 0x9A, 0x9A);
pub const GRID: RGBColor = RGBColor(0xCF, 0xD3, 0xD8);
pub const ALARM: RGBColor = RGBColor(0xB0, 0x00, 0x1A);

pub const SMALL: i32 = 11;
pub const PLAIN: i32 = 12;
pub const LARGE: i32 = 15;

/// Letters of a size in pixels. The backend writes what it is given divided by 1.24.
pub fn font(pixels: i32, style: FontStyle) -> FontDesc<'static> {
    FontDesc::new(FontFamily::SansSerif, f64::from(pixels) * 1.24, style)
}

pub fn text(pixels: i32, across: HPos, along: VPos) -> TextStyle<'static> {
    font(pixels, FontStyle::Normal).color(&BLACK).pos(Pos::new(across, along))
}

/// A filled box from its left upper corner. Rules are such boxes too: unlike lines, they lie on
/// whole pixels.
pub fn filled(
    (x, y): (i32, i32),
    (width, height): (i32, i32),
    ink: RGBColor,
) -> Rectangle<(i32, i32)> {
    Rectangle::new([(x, y), (x + width, y + height)], ink.filled())
}

/// About how many pixels long words are drawn.
pub fn length(words: &str, pixels: i32) -> i32 {
    let size = font(pixels, FontStyle::Normal).box_size(words);
    size.expect("a length that is only estimated").0 as i32
}
