//! The program `yarrowbell`: what a bench engineer and a teacher use, over the proved library.
//!
//! Exit status: 0 done; 1 a difference found by soak or bench, or a frame or packet refused under
//! --check; 2 bad input, and nothing done, or a file that could not be written; 3 could not print, or
//! ./yarrowbell could not build the program, or bench the benchmark. A reader who has gone, as behind
//! a pipe, is no failure.

mod against;
mod bench;
mod bytes;
mod channels;
mod course;
mod demo;
mod failure;
mod field;
mod frame;
mod hex;
mod input;
mod json;
mod layout;
mod lesson;
mod number;
mod order;
mod output;
mod packet;
mod picture;
mod play;
mod profile;
mod progress;
mod read;
mod reason;
mod replay;
mod script;
mod session;
mod setting;
mod sheet;
mod soaking;
mod story;
mod subcommands;
mod times;
mod trace;
mod unit;
mod words;
mod wrapping;
mod write;

use clap::Parser;
use failure::Failure;
use std::io::{self, BufWriter, Write};
use std::process::ExitCode;

fn main() -> ExitCode {
    let arguments = subcommands::Arguments::parse();
    let mut out = BufWriter::new(io::stdout().lock());
    let ran = subcommands::run(arguments, &mut out);
    ran.and_then(|status| out.flush().map(|()| status).map_err(Failure::from))
        .unwrap_or_else(Failure::told)
}
