//! What the program prints for a frame, turned back into numbers.

use std::str::Lines;
use yarrowbell::{Command, Frame, Init, Setting, Single};

/// The parts between empty lines: the frame's name, its bits, its fields, and what comes of it.
pub fn parts(text: &str) -> Vec<&str> {
    text.trim_end().split("\n\n").collect()
}

/// What stands before the reply to a good frame.
const ANSWERED: &str = "answer 0: good frame, reply ";

/// What is said behind the answer to a good frame.
pub fn behind(text: &str) -> Vec<&str> {
    text.lines().skip_while(|line| !line.starts_with(ANSWERED)).skip(1).collect()
}

/// A good frame and the reply byte.
pub fn frame(text: &str) -> (Frame, u8) {
    let [_, _, fields, end] = parts(text)[..] else { panic!("not four parts: {text}") };
    let mut lines = fields.lines();
    let ident = value(&mut lines, "Ident", |ident| {
        format!(": {}", ["Init", "Update", "Stop", "Single"][usize::from(ident)])
    });
    value(&mut lines, "Check", |_| String::new());
    let command = match ident {
        0 => Command::Init(Init {
            factor: value(&mut lines, "N_Factor", skips) as u8,
            stim: value(&mut lines, "Channel_Stim", listed) as u8,
            lf: value(&mut lines, "Channel_Lf", listed) as u8,
            group: value(&mut lines, "Group_Time", |time| halves("t2", time + 3)) as u8,
            main: value(&mut lines, "Main_Time", |time| halves("t1", time + 2)),
        }),
        1 => Command::Update(settings(&mut lines)),
        2 => Command::Stop,
        _ => Command::Single(Single {
            channel: value(&mut lines, "Channel_Number", |of| format!(": channel {}", of + 1))
                as u8,
            width: value(&mut lines, "Pulse_Width", |_| " µs".to_owned()),
            current: value(&mut lines, "Pulse_Current", |_| " mA".to_owned()) as u8,
        }),
    };
    assert_eq!(lines.next(), None, "{text}");
    let mut lines = end.lines();
    assert!(lines.next().is_some_and(|check| check.ends_with(": right")), "{text}");
    let used = lines.next().and_then(|line| line.strip_prefix("bytes used "));
    let reply = lines.find_map(|line| line.strip_prefix(ANSWERED));
    let used = used.and_then(|used| used.parse().ok()).expect("the bytes used");
    let reply = reply.and_then(|reply| u8::from_str_radix(reply, 16).ok()).expect("the reply");
    (Frame { command, used }, reply)
}

/// The number in the next line, which has this name before it and this behind it.
fn value(lines: &mut Lines, name: &str, meaning: impl Fn(u16) -> String) -> u16 {
    let line = lines.next().unwrap_or_else(|| panic!("no {name}"));
    let number = line.get(15..20).and_then(|number| number.trim().parse().ok());
    let number = number.unwrap_or_else(|| panic!("no number in {line:?}"));
    assert_eq!(line, format!("{name:15}{number:5}{}", meaning(number)));
    number
}

fn skips(skips: u16) -> String {
    match skips {
        0 => ": no cycle skipped".to_owned(),
        _ => format!(": {skips} of {} cycles skipped", skips + 1),
    }
}

fn listed(bits: u16) -> String {
    let channels: Vec<String> =
        (1..=8).filter(|channel| bits & 1 << (channel - 1) != 0).map(|n| n.to_string()).collect();
    match channels.len() {
        0 => ": no channel".to_owned(),
        1 => format!(": channel {}", channels[0]),
        _ => format!(": channels {}", channels.join(", ")),
    }
}

/// A time of so many half milliseconds.
fn halves(name: &str, halves: u16) -> String {
    format!(": {name} = {}.{} ms", halves / 2, halves % 2 * 5)
}

fn settings(lines: &mut Lines) -> [Setting; 8] {
    let mut settings = [Setting::default(); 8];
    let mut entries = 0;
    while let Some(entry) = lines.next() {
        let which = if entries == 0 { "lowest" } else { "next" };
        assert_eq!(entry, format!("entry {}, the {which} listed channel", entries + 1));
        settings[entries] = Setting {
            mode: value(lines, "  Mode", |mode| {
                [": single pulse", ": doublet", ": triplet"][usize::from(mode)].to_owned()
            }) as u8,
            width: value(lines, "  Pulse_Width", |_| " µs".to_owned()),
            current: value(lines, "  Pulse_Current", |_| " mA".to_owned()) as u8,
        };
        entries += 1;
    }
    settings
}

/// The bytes of the table. Each low bit of a byte of the frame stands in one row below it.
pub fn bytes(text: &str) -> Vec<u8> {
    let mut rows = parts(text)[1].lines().skip(1).peekable();
    let mut bytes = Vec::new();
    while let Some(row) = rows.next() {
        let byte = u8::from_str_radix(&row[7..9], 16).expect("a byte in hex");
        assert!(row.starts_with(&format!("{:4}   {byte:02X}  {byte:08b}  bit 7 ", bytes.len() + 1)));
        let mut bits = *b"........";
        bits[0] = row.as_bytes()[11];
        while let Some(below) = rows.next_if(|row| row.starts_with("     ")) {
            for (bit, shown) in bits.iter_mut().zip(below[11..19].bytes()) {
                assert!(*bit == b'.' || shown == b'.', "a bit shown twice: {text}");
                *bit = if shown == b'.' { *bit } else { shown };
            }
        }
        let whole = format!("{byte:08b}").into_bytes();
        assert!(bits == *whole || bits[1..] == *b".......", "{text}");
        bytes.push(byte);
    }
    bytes
}
