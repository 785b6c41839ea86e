//! `trace` on the bytes themselves: a readout as it was saved, and a ring as it lies in memory.

use crate::folder::Folder;
use crate::run::{self, bad, printed};
use crate::seeded::seeded;
use rand::rngs::SmallRng;
use rand::Rng;
use soak::sessions;
use yarrowbell::Guard;

/// Document 01's case 13.
const CASE_13: [u8; 27] = [
    0x02, 0x64, 0x00, 0x00, 0x00, 0x01, 0xC8, 0x00, 0x28, 0x02, 0x73, 0x00, 0x00, 0x00, 0x03, 0x2C,
    0x01, 0x1E, 0x02, 0x91, 0x00, 0x00, 0x00, 0x03, 0x2C, 0x01, 0x1E,
];

const NO_TEXT: &str = "; line 1 is no text, and so it is taken as the bytes themselves";

fn hex(bytes: &[u8]) -> String {
    bytes.iter().map(|byte| format!("{byte:02X} ")).collect()
}

#[test]
fn a_readout_as_it_was_saved() {
    let folder = Folder::new("a_readout_as_it_was_saved").with("ring.bin", CASE_13);
    let expected = printed(&format!("trace {}", hex(&CASE_13)));
    assert_eq!(folder.line("trace ring.bin").out, expected);
    assert_eq!(folder.fed("trace -", CASE_13).out, expected);
    folder.put("empty.bin", "");
    assert_eq!(folder.line("trace empty.bin").out, "no records\n");
}

/// Every readout of a random history, whatever bytes it has.
#[test]
fn readouts_of_random_sessions() {
    let folder = Folder::new("readouts_of_random_sessions");
    seeded(0..60, |rng| {
        let readout = read_out(rng).0;
        folder.put("ring.bin", &readout);
        let expected = if readout.is_empty() {
            "no records\n".to_owned()
        } else {
            printed(&format!("trace {}", hex(&readout)))
        };
        assert_eq!(folder.line("trace ring.bin").out, expected);
    });
}

/// The readout after a random session, with the ring's capacity.
fn read_out(rng: &mut SmallRng) -> (Vec<u8>, usize) {
    let session = sessions::session(rng);
    let mut guard = Guard::new(session.profile, session.capacity).expect("both are good");
    let mut sent = session.sent.iter().peekable();
    loop {
        while let Some((_, byte)) = sent.next_if(|(clock, _)| *clock == guard.clock()) {
            guard.byte(*byte);
        }
        if guard.clock() == session.end {
            return (guard.trace(), session.capacity);
        }
        guard.tick().expect("the clock is far from its end");
    }
}

#[test]
fn what_is_no_readout() {
    let folder = Folder::new("what_is_no_readout")
        .with("high.bin", b"\xFF\xFE")
        .with("cut.bin", &CASE_13[..26])
        .with("long.bin", [3; 4097])
        .with("latin1", b"03 00 00 00\n00 01 # \xB5s\n");
    let answer = "(answer 14: used ring bytes do not split into whole known records)";
    let kinds = "and no record is of that kind: 01 is an answer, 02 a pulse, 03 a trip";
    folder.refuses(
        "trace high.bin",
        &format!("high.bin: byte 0 (counted from 0) is FF, {kinds} {answer}{NO_TEXT}"),
    );
    let cut = "is cut short: one of kind 02 has 9 bytes, and 8 are there";
    folder.refuses(
        "trace cut.bin",
        &format!("cut.bin: the record at byte 18 (counted from 0) {cut} {answer}{NO_TEXT}"),
    );
    let most = "4097 bytes cannot be a readout: a ring has at most 4096";
    folder.refuses("trace long.bin", &format!("long.bin: {most}{NO_TEXT}"));
    let line_2 = NO_TEXT.replace("line 1", "line 2");
    folder.refuses(
        "trace latin1",
        &format!("latin1: byte 0 (counted from 0) is 30, {kinds} {answer}{line_2}"),
    );
}

/// What is text and what is not: the control characters that may stand in it, and no others.
#[test]
fn text_and_bytes() {
    let folder = Folder::new("text_and_bytes");
    let trip = b"03 FF 00 00 00 02";
    let expected = printed("trace 03 FF 00 00 00 02");
    for text in [&b"\t"[..], b"\n", b"\x0C", b"\r", b" # \xC2\xB5", b"\xE2\x80\x83"] {
        assert_eq!(folder.fed("trace -", [&trip[..], text].concat()).out, expected, "{text:?}");
    }
    for control in [&b"\0"[..], b"\x01", b"\x0B", b"\x1B", b"\x7F", b"\xC2\x85", b"\xFF", b"\xC2"] {
        let ran = folder.fed("trace -", [&trip[..], b" # ", control].concat());
        let begins = "standard input: byte 0 (counted from 0) is 30, ";
        assert!(ran.err.starts_with(begins), "{control:?}: {}", ran.err);
        assert_eq!((ran.status, ran.out.as_str()), (2, ""), "{control:?}");
    }
}

/// The memory of a ring, from wherever its records begin in it: in hex and as it is.
#[test]
fn a_ring_in_memory() {
    let folder = Folder::new("a_ring_in_memory");
    seeded(100..160, |rng| {
        let (readout, capacity) = read_out(rng);
        let (start, used) = (rng.gen_range(0..capacity), readout.len());
        let mut memory: Vec<u8> = (0..capacity).map(|_| rng.gen()).collect();
        for (place, byte) in readout.iter().enumerate() {
            memory[(start + place) % capacity] = *byte;
        }
        folder.put("ring.bin", &memory);
        folder.put("ring.hex", hex(&memory));
        folder.put("readout.bin", &readout);
        let expected = folder.line("trace readout.bin").out;
        for line in ["trace ring.bin", "trace ring.hex", &format!("trace {}", hex(&memory))] {
            let ran = folder.line(&format!("{line} --start {start} --used {used}"));
            assert_eq!((ran.status, &ran.out), (0, &expected), "{line}");
        }
    });
}

/// A ring that goes round, and what is refused of it.
#[test]
fn bad_numbers_of_a_ring() {
    let ring = "00000001C80028 00000000000000 0264";
    let trace = |numbers: &str, message: &str| bad(&format!("trace {ring} {numbers}"), message);
    trace("--start 16 --used 9", "--start: 16 is out of its range, 0 to 15 for 16 bytes");
    trace("--start 4096 --used 0", "--start: 4096 is out of its range, 0 to 15 for 16 bytes");
    trace("--start 14 --used 17", "--used: 17 is out of its range, 0 to 16 for 16 bytes");
    let answer = "(answer 14: used ring bytes do not split into whole known records)";
    trace(
        "--start 14 --used 8",
        &format!(
            "<HEX>...: the record at byte 0 (counted from 0) is cut short: one of kind 02 has 9 \
             bytes, and 8 are there {answer}; byte 0 of the readout is byte 14 of the memory"
        ),
    );
    let kinds = "and no record is of that kind: 01 is an answer, 02 a pulse, 03 a trip";
    trace(
        "--start 14 --used 10",
        &format!(
            "<HEX>...: byte 9 (counted from 0) is 00, {kinds} {answer}; byte 9 of the readout is \
             byte 7 of the memory"
        ),
    );
    assert_eq!(printed(&format!("trace {ring} --start 14 --used 0")), "no records\n");
    let part = "cannot be a ring's part: it has 16 to 4096";
    bad("trace 030000000001 --start 0 --used 6", &format!("<HEX>...: 6 bytes {part}"));
    let long = "03".repeat(4097);
    bad(&format!("trace {long} --start 0 --used 6"), &format!("<HEX>...: 4097 bytes {part}"));
    // In a file the line of the byte in memory is named.
    let folder = Folder::new("bad_numbers_of_a_ring")
        .with("ring", "00000001C80028\n00000000000000\n0264\n")
        .with("ring.bin", [0; 16]);
    folder.refuses(
        "trace ring --start 14 --used 10",
        &format!(
            "ring:2: byte 9 (counted from 0) is 00, {kinds} {answer}; byte 9 of the readout is \
             byte 7 of the memory"
        ),
    );
    folder.refuses(
        "trace ring.bin --start 3 --used 1",
        &format!(
            "ring.bin: byte 0 (counted from 0) is 00, {kinds} {answer}; byte 0 of the readout is \
             byte 3 of the memory{NO_TEXT}"
        ),
    );
}

#[test]
fn misspelt_numbers_of_a_ring() {
    let first = |line: &str| {
        let ran = run::line(&format!("trace 03 {line}"));
        assert_eq!((ran.status, ran.out.as_str()), (2, ""), "{line}");
        ran.err.lines().take(2).collect::<Vec<&str>>().join("").replace("  ", " ")
    };
    assert_eq!(
        first("--start -1 --used 0"),
        "error: Invalid value '-1' for '--start <S>': not a whole number from 0 to 4095"
    );
    assert_eq!(
        first("--start 0 --used x"),
        "error: Invalid value 'x' for '--used <N>': not a whole number from 0 to 4096"
    );
    let alone = "error: The following required arguments were not provided:";
    assert_eq!(first("--start 0"), format!("{alone} --used <N>"));
    assert_eq!(first("--used 0"), format!("{alone} --start <S>"));
}
