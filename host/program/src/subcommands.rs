//! The subcommands.

use crate::failure::{Failure, Out};
use crate::{bench, demo, lesson, packet, read, replay, script, sheet, soaking, trace, write};
use clap::{Parser, Subcommand};
use std::process::ExitCode;

/// The bench program of a guard unit for an eight-channel muscle stimulator speaking ScienceMode,
/// over a proved library
#[derive(Parser)]
#[command(
    name = "yarrowbell",
    after_help = "\
Each command has an example in its own help, as yarrowbell read --help.

Exit status:
  0  done
  1  a difference found by soak or bench, or a frame or packet refused under --check
  2  bad input, and nothing done, or a file that could not be written
  3  could not print, or ./yarrowbell could not build the program, or bench the benchmark"
)]
pub struct Arguments {
    #[command(subcommand)]
    task: Task,
}

#[derive(Subcommand)]
enum Task {
    Demo(demo::Demo),
    Read(read::Read),
    Write(write::Write),
    Trace(trace::Trace),
    Sheet(sheet::Sheet),
    Packet(packet::Packet),
    Replay(replay::Replay),
    Session(script::Script),
    Lesson(lesson::Lesson),
    Soak(soaking::Soak),
    Bench(bench::Bench),
}

pub fn run(arguments: Arguments, out: Out) -> Result<ExitCode, Failure> {
    match arguments.task {
        Task::Demo(demo) => demo.run(out)?,
        Task::Read(read) => return read.run(out),
        Task::Write(write) => write.run(out)?,
        Task::Trace(trace) => trace.run(out)?,
        Task::Sheet(sheet) => sheet.run(out)?,
        Task::Packet(packet) => return packet.run(out),
        Task::Replay(replay) => replay.run(out)?,
        Task::Session(script) => script.run(out)?,
        Task::Lesson(lesson) => lesson.run(out)?,
        Task::Soak(soak) => soak.run(out)?,
        Task::Bench(bench) => return bench.run(),
    }
    Ok(ExitCode::SUCCESS)
}
