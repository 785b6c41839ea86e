//! "Where each field alone is in 01's ranges (width 10 to 500, current 1 to 127)".

use crate::record::Record;

/// Whether each field is in its range. A clock always is: "from 0 to 4,294,967,295".
pub fn in_range(record: &Record) -> bool {
    match *record {
        // "For each of 0, 3 to 10 given to a command".
        Record::Answer { ident, answer, .. } => ident <= 3 && matches!(answer, 0 | 3..=10),
        Record::Pulse { channel, width, current, .. } => {
            matches!(channel, 1..=8) && matches!(width, 10..=500) && matches!(current, 1..=127)
        }
        // "1 limit, at every 9; 2 watchdog".
        Record::Trip { cause, .. } => matches!(cause, 1..=2),
    }
}
