//! Sheets by their lines.

use crate::agree;
use independent::Record;

pub const HEADER: &str = "clock,kind,channel,width_us,current_ma,code\n";

/// The header and these lines, each with its end.
pub fn sheet(lines: &[&str]) -> Vec<u8> {
    let ended: Vec<String> = lines.iter().map(|line| format!("{line}\n")).collect();
    [HEADER, &ended.concat()].concat().into_bytes()
}

/// The line of a record, without its end, whether or not its fields are in their ranges.
pub fn line(record: &Record) -> String {
    match record {
        Record::Answer { clock, ident, answer } => format!("{clock},answer,{ident},,,{answer}"),
        Record::Pulse { clock, channel, width, current } => {
            format!("{clock},pulse,{channel},{width},{current},")
        }
        Record::Trip { clock, cause } => format!("{clock},trip,,,,{cause}"),
    }
}

/// The sheet of these records, whether or not their fields are in their ranges.
pub fn sheet_of(records: &[Record]) -> Vec<u8> {
    let lines: Vec<String> = records.iter().map(line).collect();
    sheet(&lines.iter().map(String::as_str).collect::<Vec<_>>())
}

/// These records are written as their lines, and read back.
pub fn both_ways(records: &[Record]) {
    let readout: Vec<u8> = records.iter().flat_map(Record::bytes).collect();
    let sheet = sheet_of(records);
    assert_eq!(agree::write(&readout).as_deref(), Ok(&sheet[..]));
    assert_eq!(agree::read(&sheet).as_deref(), Ok(&readout[..]));
}
