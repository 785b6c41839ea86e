//! The `--calls` and `--readout` of random sessions, compared with the independent machine.

use crate::folder::Folder;
use crate::independently::{played, text, toml, Call};
use crate::seeded::seeded;
use rand::Rng;
use soak::sessions;

#[test]
fn random_sessions() {
    let folder = Folder::new("random_sessions");
    let [mut pulses, mut trips] = [0, 0];
    seeded(0..600, |rng| {
        let session = sessions::session(rng);
        folder.put("s", text(&session, rng.gen()));
        folder.put("p.toml", toml(&session.profile));
        let line = format!("replay s --profile p.toml --capacity {} ", session.capacity);
        let ran = folder.line(&(line + "--calls --readout"));
        assert_eq!((ran.status, ran.err.as_str()), (0, ""));
        let (calls, readout) = played(&session, session.profile);
        let head = "clock,call,byte,answer,reply,channel,width_us,current_ma,trip".to_owned();
        let readout = readout.iter().map(|byte| format!(" {}", hex(byte))).collect::<String>();
        let lines = [head].into_iter().chain(calls.iter().map(line_of));
        for (is, should) in ran.out.lines().zip(lines.chain([format!("#{readout}")])) {
            assert_eq!(is, should);
        }
        assert_eq!(ran.out.lines().count(), 1 + calls.len() + 1);
        pulses += calls.iter().filter_map(Call::pulse).count();
        trips += calls.iter().filter(|call| call.trip.is_some()).count();
    });
    assert!(pulses > 10_000, "{pulses} pulses show little");
    assert!(trips > 500, "{trips} trips show little");
}

/// A reader that skips comments reads all of it, with the readout behind the last line.
#[test]
fn a_whole_csv_with_the_readout() {
    let folder = Folder::new("a_whole_csv")
        .with("s", "0 88 01 20 00 30 12\n5 BB 01 48 28 22 2C 1E\n300 end\n")
        .with("lax.toml", "watchdog = 250\n");
    let calls = folder.line("replay s --profile lax.toml --calls --readout").out;
    let mut reader = csv::ReaderBuilder::new().comment(Some(b'#')).from_reader(calls.as_bytes());
    let lines: Vec<csv::StringRecord> =
        reader.records().map(|line| line.expect("as many cells as the head has")).collect();
    assert_eq!(lines.len(), 13 + 300);
    let trips: Vec<&csv::StringRecord> = lines.iter().filter(|line| !line[8].is_empty()).collect();
    assert_eq!(trips, [&vec!["255", "tick", "", "0", "", "", "", "", "2"]]);
    let readout = calls.lines().last().and_then(|line| line.strip_prefix("# ")).expect("a comment");
    assert!(folder.line(&format!("trace {readout}")).out.ends_with("trip    cause 2: watchdog\n"));
}

fn line_of(call: &Call) -> String {
    let answer = call.said.answer;
    let (kind, byte, reply) = match call.byte {
        Some(byte) if answer == 1 || answer == 2 => ("byte", hex(&byte), String::new()),
        Some(byte) => ("byte", hex(&byte), hex(&call.said.reply)),
        None => ("tick", String::new(), String::new()),
    };
    let pulse = call.pulse().map_or(",,".to_owned(), |pulse| {
        format!("{},{},{}", pulse.channel, pulse.width, pulse.current)
    });
    let trip = call.trip.map_or_else(String::new, |cause| cause.to_string());
    format!("{},{kind},{byte},{answer},{reply},{pulse},{trip}", call.clock)
}

fn hex(byte: &u8) -> String {
    format!("{byte:02X}")
}
