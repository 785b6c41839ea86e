//! The box, changed where it lies.

mod box_record;
mod byte;
mod decided;
mod good;
mod init;
mod list;
mod partial;
mod profile;
mod run;
mod said;
mod single;
mod stop;
mod tick;
mod trip;
mod turn;
mod update;

pub use box_record::BoxRecord;
pub use partial::PartialFrame;
pub use profile::Profile;
pub use run::Run;
pub use said::{Pulse, Said};

/// "States: idle, running, tripped."
const IDLE: u16 = 0;
const RUNNING: u16 = 1;
const TRIPPED: u16 = 2;

/// The hold of a module after Init, Stop and Single, in tenths.
const HOLD: u8 = 15;
