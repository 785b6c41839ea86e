//! The lines of a sheet: fields between commas, never quoted, "ended by one line feed".

use super::fields::COLUMNS;
use csv::{QuoteStyle, ReaderBuilder, StringRecord, Terminator, WriterBuilder};

const LINE_FEED: u8 = b'\n';

/// The fields of each line, one after the other up to the first that has none: it is not ended, or has
/// another number of them.
///
/// The crate goes along with the lines. It would pass over a line without a byte and over a byte order
/// mark, but no good line is empty or has a byte that is not ASCII.
pub fn split(sheet: &[u8]) -> impl Iterator<Item = Option<[String; COLUMNS]>> + '_ {
    let mut reader = ReaderBuilder::new()
        .has_headers(false)
        .flexible(true)
        .quoting(false)
        .terminator(Terminator::Any(LINE_FEED))
        .from_reader(sheet);
    let mut fields = StringRecord::new();
    sheet.split_inclusive(|byte| *byte == LINE_FEED).map(move |line| {
        let line = line.strip_suffix(&[LINE_FEED])?;
        if line.is_empty() || !line.is_ascii() {
            return None;
        }
        reader.read_record(&mut fields).ok()?;
        let fields: Vec<String> = fields.iter().map(String::from).collect();
        fields.try_into().ok()
    })
}

/// The line of these fields, with its end.
pub fn join<T: AsRef<[u8]>>(fields: [T; COLUMNS]) -> Vec<u8> {
    let mut writer = WriterBuilder::new()
        .quote_style(QuoteStyle::Never)
        .terminator(Terminator::Any(LINE_FEED))
        .from_writer(Vec::new());
    writer.write_record(fields).expect("any fields are a first line");
    writer.into_inner().expect("there is room for a line")
}
