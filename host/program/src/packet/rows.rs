//! The bytes of a packet in rows, as they came and unstuffed, and what each is.

use super::always::{self, Always};
use super::content;
use super::generation::Generation;
use super::given::{plain, Given, Unit};
use super::stuffing::{START, STOP, STUFFING};
use crate::hex;
use crate::words::{counted, thousands};

/// How many bytes of garbage are shown, or behind a packet.
const SHOWN: usize = 16;

/// A row for each byte, or stuffed pair, of the packet, and before them one for what was passed over.
/// A packet that is longer than any good one is cut.
pub fn of<G: Generation>(given: &Given) -> Vec<String> {
    let mut rows = vec![format!("{:>4}  {:5}  plain", "at", "hex")];
    if !given.passed().is_empty() {
        rows.push(format!("{:>4}  {}", given.from(), passed(given)));
    }
    let Some(start) = given.start else { return rows };
    rows.push(row(start, &[START], None, "start byte"));
    let mut header = [(given.checksum(), "checksum"), (given.length(), "length")];
    header.sort_by_key(|(there, _)| there.at);
    for (there, name) in &header {
        rows.extend(of_always(there, name));
    }
    let units = given.units();
    let names = content::names::<G>(&plain(&units));
    let longest = given.framing.longest();
    let within = units.iter().take_while(|unit| unit.at < start + longest);
    let mut end = given.front();
    for (unit, name) in within.zip(names) {
        rows.push(row(unit.at, unit.bytes, unit.plain, &told(unit, &name)));
        end = unit.at + unit.bytes.len();
    }
    if end < given.end() {
        let more = counted((given.end() - end) as u64, "byte");
        rows.push(format!("{:>4}  {more} more", ".."));
    }
    rows.extend(given.stop.map(|stop| row(stop, &[STOP], None, "stop byte")));
    rows
}

/// What was passed over before a packet.
pub fn passed(given: &Given) -> String {
    let dropped = match given.dropped {
        0 => String::new(),
        more => format!(", with {} dropped by a new start byte", counted(more as u64, "packet")),
    };
    format!("garbage{dropped}: {}", first_bytes(given.passed()))
}

/// Bytes, or the first of them and how many there are.
pub fn first_bytes(bytes: &[u8]) -> String {
    match bytes.get(..SHOWN) {
        Some(first) if first.len() < bytes.len() => {
            format!("{} .. ({} bytes)", hex::spelt(first), thousands(bytes.len() as u64))
        }
        _ => hex::spelt(bytes),
    }
}

fn row(at: usize, bytes: &[u8], plain: Option<u8>, what: &str) -> String {
    let plain = plain.map_or_else(String::new, |plain| hex::spelt(&[plain]));
    format!("{at:>4}  {:5}  {plain:5}  {what}", hex::spelt(bytes))
}

/// A number that is always stuffed, as far as it is there. The second byte of a pair may be one that
/// starts or stops a packet elsewhere.
fn of_always(there: &Always, name: &str) -> Vec<String> {
    let halves = if there.size == 1 { [""; 2] } else { [" MSB", " LSB"] };
    let row = |((at, pair), half): ((usize, &[u8]), &str)| {
        let note = match pair {
            [STUFFING, START] => format!(", always stuffed: {}", after("F0", "start")),
            [STUFFING, STOP] => format!(", always stuffed: {}", after("0F", "stop")),
            [STUFFING, _] => ", always stuffed".to_owned(),
            _ => ", not stuffed".to_owned(),
        };
        row(at, pair, always::plain(pair), &format!("{name}{half}{note}"))
    };
    there.pairs().zip(halves).map(row).collect()
}

fn after(byte: &str, which: &str) -> String {
    format!("{byte} straight after 81 is no {which} byte")
}

fn told(unit: &Unit, name: &str) -> String {
    match (unit.bytes, unit.plain) {
        ([_, _], Some(_)) => format!("{name}, stuffed"),
        ([_, _], None) => format!("{name}: no stuffed pair"),
        (_, Some(_)) => name.to_owned(),
        (_, None) => format!("{name}: not stuffed"),
    }
}
