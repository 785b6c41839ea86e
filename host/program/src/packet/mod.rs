//! `yarrowbell packet`

mod all;
mod always;
mod argument;
mod checksum;
mod content;
mod device;
mod end;
mod field;
mod fields;
mod first;
mod framing;
mod generation;
mod given;
mod json;
mod keyed;
mod named;
mod names;
mod read;
mod reading;
mod reason;
pub mod rehamove3;
mod rehastim2;
mod rows;
mod stuffing;
mod write;
mod written;

use crate::failure::{Failure, Out};
use clap::{Args, Subcommand};
use std::process::ExitCode;

/// Read packets of the RehaStim2 or the RehaMove3, or write one
///
/// Their commands stand in packets: between a start byte and a stop byte, which are stuffed where
/// they stand inside. The RehaStim2 speaks ScienceMode2 (source 000); the RehaMove3 (source 002) is
/// sent its pulses point by point.
#[derive(Args)]
#[command(after_help = "\
Examples:
  yarrowbell packet read rehastim2 F0 81 49 81 57 00 04 0F
  yarrowbell packet write rehastim2 watchdog --number 7
  yarrowbell packet read rehamove3 F0 81 55 81 59 81 9C 81 78 08 04 0F
  yarrowbell packet write rehamove3 ll-stop --packet 2")]
pub struct Packet {
    #[command(subcommand)]
    task: Task,
}

#[derive(Subcommand)]
enum Task {
    Read(read::Read),
    Write(write::Write),
}

impl Packet {
    pub fn run(self, out: Out) -> Result<ExitCode, Failure> {
        match self.task {
            Task::Read(read) => read.run(out),
            Task::Write(write) => write.run(out).map(|()| ExitCode::SUCCESS),
        }
    }
}
