//! Good files with damage, and bytes of no sense, on every command that takes input: the program
//! does its work, or ends with exit status 2, one message and nothing printed.

use crate::folder::Folder;
use crate::independently::{text, toml};
use crate::run::{self, Ran};
use crate::seeded::seeded;
use rand::rngs::SmallRng;
use rand::Rng;
use soak::sessions;
use yarrowbell::{sheet, Guard};

/// How many runs each test makes at least.
const RUNS: u64 = 2_000;

/// What is put in between: numbers at the edges of their types, marks, words.
const PIECES: [&str; 40] = [
    "-1",
    "256",
    "65536",
    "4294967295",
    "4294967296",
    "18446744073709551616",
    "1.5",
    "1e9",
    "NaN",
    "0x",
    "0X",
    "0xE2,0x21,",
    ",",
    ":",
    ";",
    "-",
    "--",
    "--help",
    "=",
    "\"",
    "'",
    "[",
    "]",
    "{",
    "#",
    "\n",
    "\r\n",
    "\t",
    "\x0C",
    "\0",
    "\u{7F}",
    "\u{85}",
    "\u{FEFF}",
    "µ",
    "end",
    "at",
    "ms",
    "bytes",
    "update 1:0:200:40",
    " ",
];

/// One of the two, mostly with some damage.
fn spoilt(rng: &mut SmallRng, good: &[u8], other: &[u8]) -> Vec<u8> {
    let mut bytes = good.to_vec();
    for _ in 0..rng.gen_range(0..=4) {
        let (from, to) = stretch(rng, bytes.len());
        match rng.gen_range(0..9) {
            0 if from < bytes.len() => bytes[from] ^= 1 << rng.gen_range(0..8),
            1 => bytes.truncate(from),
            2 => drop(bytes.drain(from..to)),
            3 => bytes.extend_from_within(from..to),
            4 => {
                let again = bytes[from..to].to_vec();
                bytes.splice(from..from, again);
            }
            5 => {
                let (begin, end) = stretch(rng, other.len());
                bytes.splice(from..to, other[begin..end].to_vec());
            }
            6 => {
                let random: Vec<u8> = (0..rng.gen_range(1..8)).map(|_| rng.gen()).collect();
                bytes.splice(from..from, random);
            }
            7 if from < bytes.len() => bytes[from] = rng.gen_range(b' '..=b'~'),
            _ => {
                let piece = PIECES[rng.gen_range(0..PIECES.len())];
                bytes.splice(from..from, piece.bytes());
            }
        }
    }
    bytes
}

/// Two places within so many bytes, often near each other.
fn stretch(rng: &mut SmallRng, length: usize) -> (usize, usize) {
    let from = rng.gen_range(0..=length);
    let most = if rng.gen() { length } else { length.min(from + 12) };
    (from, rng.gen_range(from..=most))
}

/// Runs by how they ended.
#[derive(Default)]
struct Runs {
    taken: u32,
    refused: u32,
}

impl Runs {
    /// Judges a run, and says whether it did its work.
    fn judge(&mut self, ran: &Ran, what: &str, input: &[u8]) -> bool {
        let shown = || {
            format!("{what}, on {:?}: {} {}", String::from_utf8_lossy(input), ran.status, ran.err)
        };
        match ran.status {
            0 => {
                assert_eq!(ran.err, "", "{}", shown());
                self.taken += 1;
            }
            2 => {
                assert_eq!(ran.out, "", "{}", shown());
                let message = ran.err.strip_suffix('\n').unwrap_or_else(|| panic!("{}", shown()));
                assert!(!message.is_empty() && !message.contains('\n'), "{}", shown());
                self.refused += 1;
            }
            _ => panic!("{}", shown()),
        }
        ran.status == 0
    }

    /// Where nearly all was taken, or refused, little was shown.
    fn show(&self, least: u32) {
        let (taken, refused) = (self.taken, self.refused);
        assert!(taken.min(refused) >= least, "{taken} taken and {refused} refused show little");
    }
}

/// Runs each line on spoilt input, which is made of good.
fn fuzzed(folder: &Folder, seed: u64, lines: &[&str], good: impl Fn(&mut SmallRng) -> Vec<u8>) {
    let mut runs = Runs::default();
    let turns = RUNS / lines.len() as u64;
    seeded(seed..seed + turns, |rng| {
        let (one, other) = (good(rng), good(rng));
        for line in lines {
            let input = spoilt(rng, &one, &other);
            runs.judge(&folder.fed(line, &input), line, &input);
        }
    });
    runs.show(200);
}

/// A few bytes of a session, most of them frames.
fn frames(rng: &mut SmallRng) -> Vec<u8> {
    let session = short(rng);
    let from = rng.gen_range(0..=session.sent.len().min(4));
    session.sent[from..].iter().take(30).map(|(_, byte)| *byte).collect()
}

/// A session of a few lines.
fn short(rng: &mut SmallRng) -> sessions::Session {
    let mut session = sessions::session(rng);
    session.sent.truncate(rng.gen_range(0..120));
    session
}

/// Bytes as they are, or in one of the ways to spell them.
fn spelt(rng: &mut SmallRng, bytes: &[u8]) -> Vec<u8> {
    let (before, between) = match rng.gen_range(0..5) {
        0 => return bytes.to_vec(),
        1 => ("", " "),
        2 => ("0x", ", "),
        3 => ("", ":"),
        _ => ("", ""),
    };
    let words: Vec<String> = bytes.iter().map(|byte| format!("{before}{byte:02X}")).collect();
    words.join(between).into_bytes()
}

#[test]
fn frames_to_read() {
    let folder = Folder::new("fuzz_frames_to_read");
    fuzzed(&folder, 0, &["read -", "read - --channels 3"], |rng| {
        let bytes = frames(rng);
        spelt(rng, &bytes)
    });
}

/// The same as words of the command line, in which there can be no NUL.
#[test]
fn words_to_read_and_trace() {
    let mut runs = Runs::default();
    seeded(0..RUNS / 2, |rng| {
        let (one, other) = (frames(rng), readout(rng));
        let (one, other) = (spelt(rng, &one), spelt(rng, &other));
        for (command, good) in [("read", &one), ("trace", &other)] {
            let input = spoilt(rng, good, &one);
            let words = String::from_utf8_lossy(&input).replace('\0', "");
            let words = words.split([' ', '\n']);
            let line: Vec<&str> = [command, "--"].into_iter().chain(words).collect();
            runs.judge(&run::words(&line), command, &input);
        }
    });
    runs.show(200);
}

fn readout(rng: &mut SmallRng) -> Vec<u8> {
    let session = short(rng);
    let mut guard = Guard::new(session.profile, session.capacity).expect("both are good");
    for (_, byte) in &session.sent {
        guard.byte(*byte);
        guard.tick().expect("the clock is far from its end");
    }
    guard.trace()
}

#[test]
fn readouts_to_trace() {
    let folder = Folder::new("fuzz_readouts_to_trace");
    fuzzed(&folder, 0, &["trace -", "trace - --start 3 --used 14"], |rng| {
        let bytes = readout(rng);
        spelt(rng, &bytes)
    });
}

#[test]
fn readouts_to_write_as_sheets() {
    let folder = Folder::new("fuzz_readouts_to_write");
    fuzzed(&folder, 0, &["sheet write -"], |rng| {
        let bytes = readout(rng);
        spelt(rng, &bytes)
    });
}

#[test]
fn sheets_to_read() {
    let folder = Folder::new("fuzz_sheets_to_read");
    fuzzed(&folder, 0, &["sheet read -"], |rng| {
        sheet::of(&readout(rng)).expect("a unit writes what is in range")
    });
}

/// Packets, which are good or not by what is spoilt in them.
#[test]
fn packets_to_read() {
    let folder = Folder::new("fuzz_packets_to_read");
    let lines = ["packet read rehastim2 -", "packet read rehastim2 - --all"];
    fuzzed(&folder, 0, &lines, |rng| {
        let data: Vec<u8> = (0..rng.gen_range(0..9)).map(|_| rng.gen()).collect();
        let packet = independent::rehastim2::compose(rng.gen(), rng.gen_range(0..40), &data);
        spelt(rng, &packet)
    });
    let lines = ["packet read rehamove3 -", "packet read rehamove3 - --all"];
    fuzzed(&folder, 0, &lines, |rng| {
        let data: Vec<u8> = (0..rng.gen_range(0..9)).map(|_| rng.gen()).collect();
        let packet = independent::rehamove3::compose(rng.gen(), rng.gen_range(0..40), &data);
        spelt(rng, &packet)
    });
}

/// Whatever clock stands in a session, it is played for a moment only.
#[test]
fn sessions_to_replay() {
    let folder = Folder::new("fuzz_sessions_to_replay");
    let lines = ["replay - --until 300", "replay - --until 300 --calls --readout"];
    fuzzed(&folder, 0, &lines, |rng| text(&short(rng), rng.gen()).into_bytes());
}

#[test]
fn profiles_to_replay() {
    let folder = Folder::new("fuzz_profiles_to_replay").with("s", "0 C0\n5 end\n");
    fuzzed(&folder, 0, &["replay s --profile -", "replay s --against -"], |rng| {
        toml(&sessions::session(rng).profile).into_bytes()
    });
}

/// Far more of it than anybody has.
#[test]
fn without_end() {
    let folder = Folder::new("fuzz_without_end").with("s", "0 C0\n5 end\n");
    let lines = [
        "read -",
        "trace -",
        "trace - --start 3 --used 14",
        "sheet write -",
        "sheet read -",
        "packet read rehastim2 -",
        "packet read rehastim2 - --all --json",
        "packet read rehamove3 -",
        "packet read rehamove3 - --all --json",
        "replay - --until 5",
        "replay s --profile -",
        "session -",
        "session --back -",
    ];
    let mut runs = Runs::default();
    for piece in PIECES.iter().chain(&["C0 ", "0 C0\n", "at 5 stop\n", "a=[", "{a=", "a."]) {
        for line in lines {
            let input = piece.repeat(100_000).into_bytes();
            runs.judge(&folder.fed(line, &input), line, piece.as_bytes());
        }
    }
    runs.show(40);
}

/// What is taken is turned into something that can be turned round.
#[test]
fn scripts_and_sessions_to_turn() {
    let folder = Folder::new("fuzz_scripts_and_sessions");
    let (mut runs, mut round) = (Runs::default(), Runs::default());
    seeded(0..RUNS / 4, |rng| {
        let sessions = [text(&short(rng), true), text(&short(rng), true)];
        let scripts =
            sessions.each_ref().map(|session| folder.fed("session --back -", session).out);
        for (line, other, [good, more]) in [
            ("session -", "session --back -", &scripts),
            ("session --back -", "session -", &sessions),
        ] {
            let input = spoilt(rng, good.as_bytes(), more.as_bytes());
            let ran = folder.fed(line, &input);
            if runs.judge(&ran, line, &input) {
                round.judge(&folder.fed(other, &ran.out), other, ran.out.as_bytes());
            }
        }
    });
    runs.show(100);
    assert_eq!(round.refused, 0);
}
