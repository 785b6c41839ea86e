//! What comes of a frame: its check, what the library says of it, and the reply.

use super::reading::Reading;
use crate::{hex, reason};

pub fn of(reading: &Reading) -> Vec<String> {
    let given = &reading.given;
    let mut lines = Vec::new();
    if let Some(check) = &reading.check {
        lines.push(check.told());
    } else if given.is_frame() {
        let (own, length) = (given.own, given.length());
        lines.push(format!(
            "not whole: {own} of {length} bytes are there, too few to work out the check"
        ));
    }
    lines.extend(reading.note());
    lines.push(format!("bytes used {}", reading.used));
    if !given.behind().is_empty() {
        lines.push(format!("bytes behind, not used: {}", hex::spelt(given.behind())));
    }
    let (number, words) = (reading.answer.number(), reading.answer_words());
    let reply = hex::spelt(&[reading.reply.unwrap_or(0)]);
    lines.push(format!("answer {number}: {words}, reply {reply}"));
    lines.extend(reason::everywhere(given.frame()));
    lines
}
