//! `yarrowbell packet read` of the first packet.

use super::generation::Generation;
use super::reading::Reading;
use super::{end, fields, json, rows};
use crate::failure::{Failure, Out};
use crate::words::counted;
use yarrowbell::Answer;

/// Prints it, and says whether it is good.
pub fn print<G: Generation>(
    reading: &Reading<G>,
    as_json: bool,
    out: Out,
) -> Result<bool, Failure> {
    if as_json {
        json::print(reading, out)?;
    } else {
        tell(reading, out)?;
    }
    Ok(reading.answer() == Answer::Done)
}

fn tell<G: Generation>(reading: &Reading<G>, out: Out) -> Result<(), Failure> {
    let sections = [
        vec![head(reading)],
        rows::of::<G>(&reading.given),
        fields::of(reading),
        G::behind(&reading.values(), reading.found.packet.as_ref().ok()),
        end::of(reading),
    ];
    let texts = sections.iter().filter(|lines| !lines.is_empty());
    let texts: Vec<String> = texts.map(|lines| lines.join("\n")).collect();
    Ok(writeln!(out, "{}", texts.join("\n\n"))?)
}

fn head<G: Generation>(reading: &Reading<G>) -> String {
    let (given, bytes) = (&reading.given, reading.given.packet().len());
    if given.start.is_none() {
        return "No packet".to_owned();
    }
    let unfinished = if given.stop.is_none() { ", not finished" } else { "" };
    format!("{}{unfinished}: {}", reading.name().unwrap_or("Packet"), counted(bytes as u64, "byte"))
}
