//! The records of the trace ring (document 01, "The ring").

/// "One byte of kind, then the body that the kind fixes, numbers little endian".
#[derive(Clone, Copy, Debug, PartialEq, Eq)]
pub enum Record {
    /// "01: clock 4, Ident 1, answer 1".
    Answer { clock: u32, ident: u8, answer: u8 },
    /// "02: clock 4, channel 1 (1 to 8), width 2, current 1".
    Pulse { clock: u32, channel: u8, width: u16, current: u8 },
    /// "03: clock 4, cause 1".
    Trip { clock: u32, cause: u8 },
}

impl Record {
    /// The record of these bytes, if they are those of one.
    pub fn of(bytes: &[u8]) -> Option<Record> {
        match *bytes {
            [1, a, b, c, d, ident, answer] => {
                let clock = u32::from_le_bytes([a, b, c, d]);
                Some(Record::Answer { clock, ident, answer })
            }
            [2, a, b, c, d, channel, low, high, current] => {
                let clock = u32::from_le_bytes([a, b, c, d]);
                let width = u16::from_le_bytes([low, high]);
                Some(Record::Pulse { clock, channel, width, current })
            }
            [3, a, b, c, d, cause] => {
                let clock = u32::from_le_bytes([a, b, c, d]);
                Some(Record::Trip { clock, cause })
            }
            _ => None,
        }
    }

    pub fn bytes(&self) -> Vec<u8> {
        match *self {
            Record::Answer { clock, ident, answer } => {
                [&[1][..], &clock.to_le_bytes(), &[ident], &[answer]].concat()
            }
            Record::Pulse { clock, channel, width, current } => {
                let width = width.to_le_bytes();
                [&[2][..], &clock.to_le_bytes(), &[channel], &width, &[current]].concat()
            }
            Record::Trip { clock, cause } => [&[3][..], &clock.to_le_bytes(), &[cause]].concat(),
        }
    }
}

/// How many bytes a record of this kind has, its kind among them: "A record is known by its kind
/// byte alone."
fn length(kind: u8) -> Option<usize> {
    match kind {
        1 => Some(1 + 4 + 1 + 1),
        2 => Some(1 + 4 + 1 + 2 + 1),
        3 => Some(1 + 4 + 1),
        _ => None,
    }
}

/// The whole known records that the bytes split into; none if they do not.
pub fn records(bytes: &[u8]) -> Option<Vec<Record>> {
    let mut records = Vec::new();
    let mut rest = bytes;
    while let Some(&kind) = rest.first() {
        let (first, behind) = rest.split_at_checked(length(kind)?)?;
        records.push(Record::of(first)?);
        rest = behind;
    }
    Some(records)
}

/// How many of the used bytes are dropped with the oldest record.
///
/// By document 01 a box drops nothing of bytes that do not split, since it tells 14 first. A push by
/// itself does not ask that: it takes a record that the bytes cut for all that is left of them, and
/// a byte of an unknown kind for a record.
pub(crate) fn oldest(bytes: &[u8]) -> usize {
    length(bytes[0]).unwrap_or(1).min(bytes.len())
}
