//! All sides must do the same work before their times are compared.

mod boxes;
mod frames;
mod histories;
mod packets;
mod random;
mod rings;
mod same;
mod sheets;

pub use boxes::{end, read_out};
pub use packets::{packet_read, packet_written};
pub use sheets::{sheet_read, sheet_written};

/// Stops at the first difference between the sides.
pub fn check() {
    rings::check();
    frames::check();
    packets::check();
    sheets::check();
    histories::check();
}
