//! The devices whose packets are read and written.

use clap::ValueEnum;

/// A device, by the word that names it.
#[derive(Clone, Copy, ValueEnum)]
pub enum Device {
    /// ScienceMode2, source 000
    Rehastim2,
    /// Sources 001 and 002
    Rehamove3,
}
