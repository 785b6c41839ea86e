//! The story that is to be told of what the independent machine did.

use crate::independently::Call;
use crate::rows::Row;
use crate::why::{channels, named, reasons, Trip};
use independent::{read, Command, Init, Setting};
use yarrowbell::Answer;

const NAMES: [&str; 4] = ["Init", "Update", "Stop", "Single"];

/// All rows of one unit or of two, which were given the same calls.
pub fn rows(units: &[Vec<Call>]) -> Vec<Row> {
    let mut tellers: Vec<Teller> = units.iter().map(|_| Teller::default()).collect();
    let mut rows = Vec::new();
    for place in 0..units[0].len() {
        let clock = units[0][place].clock;
        let told: Vec<Told> = tellers
            .iter_mut()
            .zip(units)
            .map(|(teller, calls)| teller.tell(&calls[place]))
            .collect();
        if let Some(command) = told.iter().find_map(|told| told.command.clone()) {
            rows.push(Row { clock, cells: vec![vec![command]], differ: false });
        }
        for part in 0..3 {
            rows.extend(row(clock, told.iter().map(|told| told.parts[part].clone()).collect()));
        }
    }
    let clock = units[0].last().map_or(0, |call| call.clock);
    let open = tellers.iter().map(|teller| match &teller.open[..] {
        [] => Vec::new(),
        bytes => vec![format!("unfinished at the end: {}", part(bytes))],
    });
    rows.extend(row(clock, open.collect()));
    rows
}

/// Cells beside each other, if there is something in one. Those differ that begin otherwise.
fn row(clock: u32, cells: Vec<Vec<String>>) -> Option<Row> {
    let differ = cells.windows(2).any(|pair| pair[0].first() != pair[1].first());
    cells.iter().any(|cell| !cell.is_empty()).then_some(Row { clock, cells, differ })
}

/// What is to be remembered of a unit.
#[derive(Default)]
struct Teller {
    open: Vec<u8>,
    listed: u8,
    trip: Option<Trip>,
}

/// The command that a call decided; what was dropped, what was said and why, and what was done.
#[derive(Default)]
struct Told {
    command: Option<String>,
    parts: [Vec<String>; 3],
}

impl Teller {
    fn tell(&mut self, call: &Call) -> Told {
        let mut told = Told::default();
        let answer = call.said.answer;
        if let Some(byte) = call.byte {
            if byte >= 0x80 {
                let dropped = std::mem::take(&mut self.open);
                if !dropped.is_empty() {
                    told.parts[0].push(format!("dropped unfinished: {}", part(&dropped)));
                }
                self.listed = call.before.run.list.channel_stim;
            }
            match answer {
                1 => self.open.push(byte),
                2 => told.parts[1].push(format!("stray byte {byte:02X}, answer 2")),
                _ => {
                    let mut frame = std::mem::take(&mut self.open);
                    frame.push(byte);
                    told.command = Some(command(&frame, self.listed));
                    told.parts[1] = self.answered(call, &frame);
                }
            }
        }
        if let Some(pulse) = call.pulse() {
            let (channel, width, current) = (pulse.channel, pulse.width, pulse.current);
            told.parts[2].push(format!("pulse on channel {channel}: {width} µs, {current} mA"));
        }
        let watchdog = call.byte.is_none() && call.tripped && call.before.state != 2;
        if answer == 9 || watchdog {
            let (number, cause) = if watchdog { (2, "watchdog") } else { (1, "limit") };
            self.trip = Some((call.clock, number));
            told.parts[2].push(format!("TRIP, cause: {cause}"));
        }
        told
    }

    /// The answer and the reasons for it.
    fn answered(&self, call: &Call, frame: &[u8]) -> Vec<String> {
        let (answer, reply) = (call.said.answer, call.said.reply);
        let words = match Answer::from_number(answer) {
            Some(Answer::Done) => "command carried out".to_owned(),
            other => other.expect("a number of document 01").to_string(),
        };
        let mut lines = vec![format!("answer {answer}: {words}, reply {reply:02X}")];
        if answer != 0 {
            let why = reasons(&call.before, frame, answer, self.trip);
            lines.extend(why.into_iter().map(|reason| format!("  {reason}")));
        }
        lines
    }
}

fn name(frame: &[u8]) -> &'static str {
    NAMES[usize::from(frame[0] / 32 % 4)]
}

fn hex(bytes: &[u8]) -> String {
    bytes.iter().map(|byte| format!("{byte:02X}")).collect::<Vec<String>>().join(" ")
}

fn part(bytes: &[u8]) -> String {
    let (spelt, name, there) = (hex(bytes), name(bytes), bytes.len());
    match name {
        "Init" => format!("{spelt} (Init, {there} of 6 bytes)"),
        "Single" => format!("{spelt} (Single, {there} of 4 bytes)"),
        _ if there == 1 => format!("{spelt} ({name}, 1 byte)"),
        _ => format!("{spelt} ({name}, {there} bytes)"),
    }
}

/// The command's line, with its variables if it is a good frame.
fn command(frame: &[u8], listed: u8) -> String {
    let (name, count) = (name(frame), (frame.len() - 1) / 3);
    let variables = match read(frame, count.max(1)) {
        Ok(good) => match good.command {
            Command::Init(init) => format!(": {}", list(&init)),
            Command::Update(settings) => {
                let setting = |(channel, one): (u8, &Setting)| {
                    let pulses = ["single pulse", "doublet", "triplet"][usize::from(one.mode)];
                    let (width, current) = (one.pulse_width, one.pulse_current);
                    format!("channel {channel} {pulses} {width} µs {current} mA")
                };
                let settings = channels(listed).into_iter().zip(&settings).map(setting);
                format!(": {}", settings.collect::<Vec<String>>().join("; "))
            }
            Command::Stop => String::new(),
            Command::Single(one) => {
                let (width, current) = (one.pulse_width, one.pulse_current);
                format!(": channel {}, {width} µs, {current} mA", one.channel_number + 1)
            }
        },
        Err(_) => String::new(),
    };
    format!("> {} {name}{variables}", hex(frame))
}

fn list(init: &Init) -> String {
    let halves = |halves: u16| f64::from(halves) / 2.0;
    let (t1, t2) = (halves(init.main_time + 2), halves(u16::from(init.group_time) + 3));
    let skips = init.n_factor;
    let low: Vec<String> = channels(init.channel_lf).iter().map(u8::to_string).collect();
    let low = match &low[..] {
        [] => String::new(),
        low => format!(", low frequency {} skipping {skips} of {}", low.join(", "), skips + 1),
    };
    format!("{}, t1 {t1:.1} ms, t2 {t2:.1} ms{low}", named(init.channel_stim))
}
