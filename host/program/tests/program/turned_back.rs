//! `session --back`: sessions turned into scripts, which turned round again send the same bytes at the
//! same clocks, and end at the same one.

use crate::folder::Folder;
use crate::random;
use crate::seeded::seeded;
use rand::rngs::SmallRng;
use rand::Rng;
use soak::sessions;
use yarrowbell::{read, write, Command};

/// What is sent, and the end.
type Sent = (Vec<(u32, u8)>, u32);

/// The session file's, whose lines are spelt in the plainest way.
fn sent(session: &str) -> Sent {
    let (mut sent, mut end) = (Vec::new(), 0);
    for line in session.lines() {
        let mut words = line.split('#').next().unwrap_or_default().split_whitespace();
        end = words.next().and_then(|clock| clock.parse().ok()).expect("a clock");
        for byte in words.filter(|word| *word != "end") {
            sent.push((end, u8::from_str_radix(byte, 16).expect("a byte in hex")));
        }
    }
    (sent, end)
}

fn session((sent, end): &Sent) -> String {
    let lines = sent.iter().map(|(clock, byte)| format!("{clock} {byte:02X}\n"));
    lines.collect::<String>() + &format!("{end} end\n")
}

/// The script of a session, which has been turned round again.
fn turned(folder: &Folder, given: &Sent) -> String {
    let back = folder.fed("session --back -", session(given));
    assert_eq!((back.status, back.err.as_str()), (0, ""));
    let round = folder.fed("session -", &back.out);
    assert_eq!((round.status, round.err.as_str()), (0, ""), "{}", back.out);
    assert!(sent(&round.out) == *given, "{}", back.out);
    back.out
}

#[test]
fn a_session() {
    let folder = Folder::new("a_session_turned_back");
    let given = sent(
        "0 88 01 20 00 30 12\n5 BB 01 48 28 22 2C 1E\n125 E2 21 48 78 7F C0\n130 E2 21\n131 48 78\n\
         140 E2 2D 48 78 E3 21 48 78 E2 C0\n150 BB 01 48 28 22 2C 1D\n160 9F 7F 7F 73 5F 7D\n170 end",
    );
    let script = "\
at 0 init --channels 1,3 --group-time 3 --main-time 18
at 5 update 1:0:200:40 3:1:300:30
at 125 single --channel 3 --width 200 --current 120
at 125 bytes 7F
at 125 stop
at 130 bytes E2 21
at 131 bytes 48 78
at 140 bytes E2 2D 48 78
at 140 bytes E3 21 48 78
at 140 bytes E2
at 140 stop
at 150 bytes BB 01 48 28 22 2C 1D
at 160 init --channels 1,2,3,4,5,6,7,8 --low-frequency 1,2,3,4,5,6,7,8 --skips 7 --group-time 29 --main-time 2045
at 170 end
";
    assert_eq!(turned(&folder, &given), script);
    assert_eq!(turned(&folder, &(Vec::new(), 0)), "at 0 end\n");
    assert_eq!(turned(&folder, &(vec![(u32::MAX, 0xC0)], u32::MAX)).lines().count(), 2);
}

/// The comments go, and the spelling.
#[test]
fn what_is_not_kept() {
    let folder = Folder::new("what_is_not_kept");
    let ran = folder.fed("session --back -", "# a day\n7 0xE2,0x21 # a Single\n7 48:78 C0");
    let script = "at 7 single --channel 3 --width 200 --current 120\nat 7 stop\nat 7 end\n";
    assert_eq!((ran.status, ran.out.as_str()), (0, script));
}

/// An Update is read for the list of the last Init, in words or in bytes; without one it is bytes.
#[test]
fn updates() {
    let folder = Folder::new("updates_turned_back");
    let update = "BB 01 48 28 22 2C 1E";
    let words = |channels: &str| match channels.split_once(',') {
        Some((low, high)) => format!("at 9 update {low}:0:200:40 {high}:1:300:30\nat 9 end\n"),
        None => format!("at 9 bytes {update}\nat 9 end\n"),
    };
    for (before, channels) in [
        ("0 C0", ""),
        ("0 88 01 20 00 30 12", "1,3"),
        // Don't-care bits, and an Init at two clocks.
        ("0 88 01 20 0C 30 12", "1,3"),
        ("0 88 01 20\n5 00 30 12", "1,3"),
        ("0 88 01 20 00 30 12 C0", "1,3"),
        // For one channel; with a wrong check; cut by a Stop.
        ("0 84 00 20 00 30 12", ""),
        ("0 89 01 20 00 30 12", ""),
        ("0 88 01 20\n5 C0 00 30 12", ""),
    ] {
        let given = sent(&format!("{before}\n9 {update}\n"));
        let script = turned(&folder, &given);
        assert!(script.ends_with(&words(channels)), "{before}: {script}");
    }
}

/// A session behind another, which begins where that ends.
fn joined(sessions: impl Iterator<Item = Sent>) -> Sent {
    sessions.fold((Vec::new(), 0), |(mut all, from), (sent, end)| {
        all.extend(sent.into_iter().map(|(clock, byte)| (from + clock, byte)));
        (all, from + end)
    })
}

fn random_session(rng: &mut SmallRng) -> Sent {
    let session = sessions::session(rng);
    (session.sent, session.end)
}

/// The same with some bytes changed, dropped, doubled or moved to other clocks.
fn damaged(rng: &mut SmallRng) -> Sent {
    let (mut sent, end) = random_session(rng);
    for _ in 0..=sent.len() / 10 {
        if sent.is_empty() {
            break;
        }
        let place = rng.gen_range(0..sent.len());
        match rng.gen_range(0..5) {
            0 => sent[place].1 ^= 1 << rng.gen_range(0..8),
            1 => drop(sent.remove(place)),
            2 => sent.insert(place, sent[place]),
            3 => sent[place].1 = rng.gen(),
            _ => {
                // It goes to the clock of the byte before it or behind it.
                let other = place.saturating_sub(1).max(usize::from(place == 0 && sent.len() > 1));
                sent[place].0 = sent[other].0;
                sent.sort_by_key(|(clock, _)| *clock);
            }
        }
    }
    (sent, end)
}

/// Thousands of sessions, many in one file.
#[test]
fn random_sessions() {
    let folder = Folder::new("random_sessions_turned_back");
    let mut lines = [0; 5];
    seeded(0..20, |rng| {
        for make in [random_session, damaged] {
            let given = joined((0..100).map(|_| make(rng)));
            let script = turned(&folder, &given);
            for (count, word) in lines.iter_mut().zip(["init", "update", "single", "stop", "bytes"])
            {
                *count += script.matches(&format!(" {word}")).count();
            }
            all_in_words(&script);
        }
    });
    assert!(lines.iter().all(|count| *count > 5_000), "{lines:?} show little");
}

/// No line of bytes begins with a frame that could be told in words: one that the library reads, and
/// writes with the very same bytes.
fn all_in_words(script: &str) {
    let mut listed = None;
    for line in script.lines() {
        let words: Vec<&str> = line.split_whitespace().skip(2).collect();
        match words[..] {
            ["init", "--channels", list, ..] => listed = Some(list.split(',').count()),
            ["bytes", ref hex @ ..] => {
                let byte = |word: &&str| u8::from_str_radix(word, 16).expect("a byte in hex");
                let bytes: Vec<u8> = hex.iter().map(byte).collect();
                assert!(bytes[1..].iter().all(|byte| *byte < 0x80), "{line}");
                // An Init in bytes may have changed the list.
                if bytes[0] >> 5 == 4 {
                    listed = None;
                }
                let Ok(frame) = read(&bytes, listed.unwrap_or(1)) else { continue };
                if listed.is_none() && matches!(frame.command, Command::Update(_)) {
                    continue;
                }
                let mut again = [0; 25];
                let used = write(&frame.command, listed.unwrap_or(1), &mut again);
                assert_ne!(used.map(|used| &again[..used]), Ok(&bytes[..frame.used]), "{line}");
            }
            _ => (),
        }
    }
}

/// Bytes of no sense at all.
#[test]
fn random_bytes() {
    let folder = Folder::new("random_bytes_turned_back");
    seeded(100..110, |rng| {
        let sent = (0..5_000).scan(0, |clock, _| {
            *clock += rng.gen_range(0..=1) * rng.gen_range(0..3);
            Some((*clock, random::bytes(rng)))
        });
        let sent: Vec<(u32, u8)> = sent
            .flat_map(|(clock, bytes)| bytes.into_iter().map(move |byte| (clock, byte)))
            .collect();
        let end = sent.last().map_or(0, |(clock, _)| *clock) + rng.gen_range(0..3);
        turned(&folder, &(sent, end));
    });
}
