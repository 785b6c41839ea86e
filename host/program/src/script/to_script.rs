//! A session turned into a script.

use super::list::List;
use crate::session::Session;
use crate::{hex, write};
use yarrowbell::Command;

/// A script that has the same bytes at the same clocks, and the same end.
pub fn script(session: &Session) -> String {
    let mut script = String::new();
    let mut list = List::default();
    for sent in session.sent().chunk_by(|(one, _), (other, _)| one == other) {
        let (clock, _) = sent[0];
        let bytes: Vec<u8> = sent.iter().map(|(_, byte)| *byte).collect();
        let mut rest = &bytes[..];
        while !rest.is_empty() {
            let (words, used) = in_words(rest, &list).unwrap_or_else(|| as_they_are(rest));
            script += &format!("at {clock} {words}\n");
            list.see(&rest[..used]);
            rest = &rest[used..];
        }
    }
    script + &format!("at {} end\n", session.end())
}

/// The command of a frame that these bytes begin with, and how many of them it has. The library
/// reads it for the list, and writes it with the very same bytes.
fn in_words(bytes: &[u8], list: &List) -> Option<(String, usize)> {
    let listed = list.bits();
    let count = listed.map_or(1, u8::count_ones) as usize;
    let frame = yarrowbell::read(bytes, count).ok()?;
    if listed.is_none() && matches!(frame.command, Command::Update(_)) {
        return None;
    }
    let mut written = [0; 25];
    let used = yarrowbell::write(&frame.command, count, &mut written).ok()?;
    let words = || write::spelt(&frame.command, listed.unwrap_or(0));
    (written[..used] == bytes[..frame.used]).then(|| (words(), used))
}

/// Bytes up to the next that can begin a frame.
fn as_they_are(bytes: &[u8]) -> (String, usize) {
    let used = 1 + bytes[1..].iter().take_while(|byte| **byte < 0x80).count();
    (format!("bytes {}", hex::spelt(&bytes[..used])), used)
}
