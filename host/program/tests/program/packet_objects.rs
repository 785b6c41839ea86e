//! Packets as the program tells them to scripts, beside what an independent codec says of them.

use crate::objects::{has, hex, number, Object};
use crate::random_bytes::{bytes, damaged};
use crate::run::{self, printed};
use crate::seeded::seeded;
use crate::table::object;
use rand::rngs::SmallRng;
use rand::Rng;
use serde_json::{json, Value};
use std::ops::Range;

/// What a codec reads, of whatever device. There is no command unless the answer is 0.
pub struct Read {
    pub answer: u8,
    pub used: usize,
    pub packet: u8,
    pub command: Option<Carried>,
}

/// A command by its number, its data, and its values by the program's keys.
pub struct Carried {
    pub number: u16,
    pub data: Vec<u8>,
    pub keys: Value,
}

/// Whole or not, good or not: what is told is what the codec reads. All answers are met.
pub fn any_bytes(
    device: &str,
    seeds: Range<u64>,
    packet: fn(&mut SmallRng) -> Vec<u8>,
    read: impl Fn(&[u8]) -> Read,
) {
    let mut met = [0; 17];
    seeded(seeds, |rng| {
        let mut capture = if rng.gen() { bytes(rng, 4) } else { Vec::new() };
        for _ in 0..rng.gen_range(1..=3) {
            let packet = packet(rng);
            capture.extend(if rng.gen_ratio(1, 3) { damaged(rng, packet) } else { packet });
        }
        let line = format!("packet read {device} --json {}", hex(&capture));
        let (first, all) = (printed(&line), printed(&format!("{line} --all")));
        assert_eq!(all.lines().next(), first.lines().next());
        let mut at = 0;
        for line in all.lines() {
            let (told, read) = (object(line), read(&capture[at..]));
            same(&told, &read, at, &capture);
            met[usize::from(read.answer)] += 1;
            at = if read.used == 0 { capture.len() } else { at + read.used };
        }
        assert_eq!(at, capture.len());
    });
    for answer in [0, 1, 3, 4] {
        assert!(met[answer] > 20, "{met:?} show little");
    }
}

/// What is told of a packet is what was read from here on.
fn same(told: &Object, read: &Read, from: usize, capture: &[u8]) {
    let command = read.command.as_ref();
    let numbers = ["answer", "used", "packet", "command"].map(|key| number(&told[key]));
    let of_command = command.map_or(0, |command| command.number.into());
    assert_eq!(numbers, [read.answer.into(), read.used, read.packet.into(), of_command]);
    let data = command.map(|command| json!(hex(&command.data)));
    assert_eq!(told["data"], data.unwrap_or(Value::Null));
    match command {
        Some(Carried { keys, .. }) => has_keys(told, keys),
        None => assert_eq!(told["fields"], json!({})),
    }
    assert_eq!(told["reason"].is_null(), read.answer == 0, "{told:?}");
    assert!(told["name"].is_null() || read.answer == 0, "{told:?}");
    let Some(start) = told["at"].as_u64().map(|at| at as usize) else { return };
    assert_eq!(number(&told["garbage"]), start - from);
    let end = if read.used == 0 { capture.len() } else { from + read.used };
    assert_eq!(told["bytes"], hex(&capture[start..end]));
    if let Some(place) = told["place"].as_u64() {
        assert!((start..end).contains(&(place as usize)), "{told:?}");
    }
}

fn has_keys(told: &Object, keys: &Value) {
    for (key, value) in keys.as_object().expect("keys with values") {
        assert_eq!(told[key], *value, "{key}");
    }
}

/// A line is written as this packet of a command, or refused with exit status 2 and one of these
/// words if it is none. Says which.
pub fn written(line: &str, packet: Option<(u8, Vec<u8>, Carried)>, refusals: &[&str]) -> bool {
    let words: Vec<&str> = line.split_whitespace().collect();
    let ran = run::words(&words);
    let Some((packet, bytes, command)) = packet else {
        assert_eq!((ran.status, ran.out.as_str()), (2, ""), "{line}");
        assert!(ran.err.contains(" is not good (answer 4: "), "{line}: {}", ran.err);
        assert!(refusals.iter().any(|words| ran.err.contains(words)), "{line}: {}", ran.err);
        return false;
    };
    assert_eq!((ran.status, ran.out), (0, hex(&bytes) + "\n"), "{line}: {}", ran.err);
    let line = format!("{line} --json");
    has(
        &line,
        json!({
            "bytes": hex(&bytes), "packet": packet, "command": command.number,
            "data": hex(&command.data),
        }),
    );
    has(&line, command.keys);
    true
}
