//! Commands, their answers and numbers in words.

use crate::{channels, frame, times};
use yarrowbell::{Answer, Command, Init, Setting, Single};

/// The commands by their Ident.
pub const COMMANDS: [&str; 4] = ["Init", "Update", "Stop", "Single"];

/// The name of the command that a frame's first byte opens.
pub fn name(first: u8) -> &'static str {
    COMMANDS[usize::from(first >> 5 & 3)]
}

/// The command of a whole frame, with its variables if they can be read. Those of an Update are the
/// listed channels', if there are as many.
pub fn command(bytes: &[u8], listed: u8) -> String {
    let name = name(bytes[0]);
    match frame::command(bytes) {
        Some(Command::Init(init)) => format!("{name}: {}", list(init)),
        Some(Command::Update(settings)) => {
            let entries = frame::entries(bytes);
            let settings = settings[..entries].iter().map(setting);
            let told: Vec<String> = if listed.count_ones() as usize == entries {
                let named = channels::of(listed).zip(settings);
                named.map(|(channel, setting)| format!("channel {channel} {setting}")).collect()
            } else {
                settings.collect()
            };
            format!("{name}: {}", told.join("; "))
        }
        Some(Command::Single(Single { channel, width, current })) => {
            format!("{name}: channel {}, {width} µs, {current} mA", channel + 1)
        }
        Some(Command::Stop) | None => name.to_owned(),
    }
}

fn list(init: Init) -> String {
    let (t1, t2) = (t1(init.main), t2(init.group.into()));
    let mut list = format!("{}, t1 {t1}, t2 {t2}", channels(init.stim));
    if init.lf != 0 {
        let lf = channels::spelt(init.lf);
        list += &format!(", low frequency {lf} skipping {} of {}", init.factor, init.factor + 1);
    }
    list
}

fn setting(setting: &Setting) -> String {
    format!("{} {} µs {} mA", pulses(setting.mode), setting.width, setting.current)
}

/// Source 003, table 6.
pub fn pulses(mode: u8) -> &'static str {
    match mode {
        0 => "single pulse",
        1 => "doublet",
        _ => "triplet",
    }
}

/// The channels of these bits, by their name.
pub fn channels(bits: u8) -> String {
    match bits.count_ones() {
        0 => "no channel".to_owned(),
        1 => format!("channel {}", channels::spelt(bits)),
        _ => format!("channels {}", channels::spelt(bits)),
    }
}

/// The main period that a Main_Time gives.
pub fn t1(main_time: u16) -> String {
    format!("{} ms", milliseconds(times::t1(main_time)))
}

/// The group interval that a Group_Time gives.
pub fn t2(group_time: u16) -> String {
    format!("{} ms", milliseconds(times::t2(group_time)))
}

/// The head of two columns, of a clock and of the same in milliseconds.
pub const TIME: &str = "     clock          ms";

/// A clock in these columns, which have room for the last one.
pub fn time(clock: u32) -> String {
    format!("{clock:>10} {:>11}", milliseconds(clock))
}

/// Tenths of a millisecond in milliseconds.
pub fn milliseconds(tenths: u32) -> String {
    format!("{}.{}", tenths / 10, tenths % 10)
}

/// A number with commas.
pub fn thousands(number: u64) -> String {
    match number / 1000 {
        0 => number.to_string(),
        thousand => format!("{},{:03}", thousands(thousand), number % 1000),
    }
}

/// So many of a thing that has a plural in s.
pub fn counted(count: u64, thing: &str) -> String {
    let plural = if count == 1 { "" } else { "s" };
    format!("{} {thing}{plural}", thousands(count))
}

/// An answer to a command.
pub fn answer(answer: Answer) -> String {
    format!("answer {}: {}", answer.number(), meaning(answer))
}

/// What an answer to a command says.
pub fn meaning(answer: Answer) -> String {
    match answer {
        Answer::Done => "command carried out".to_owned(),
        other => other.to_string(),
    }
}

#[cfg(test)]
mod tests {
    use super::{time, TIME};

    #[test]
    fn columns_of_time() {
        assert_eq!(time(0), "         0         0.0");
        assert_eq!(time(u32::MAX), "4294967295 429496729.5");
        assert_eq!(TIME.len(), time(u32::MAX).len());
    }
}
