//! `yarrowbell lesson ring`

use super::page::{Page, Theorem};
use super::{wrong, Drawn};
use crate::course::Courses;
use crate::failure::{Failure, Out};
use crate::unit::{Call, Unit};
use crate::{hex, story};
use yarrowbell::raw::Part;
use yarrowbell::{calls, Answer, Guard, Profile, Told};

const PAGE: Page = Page {
    title: "ring",
    mistake: "a record is written past the ring's end, and changes the command beside it.",
    code: include_str!("wrong/ring.rs"),
    units: "\
Both units are the proved machine with 40 bytes of memory: bytes 0 to 31 are the ring, and in
byte 32 the PC's byte waits until the unit takes it. They differ in how they keep their records.",
    input: "\
0 88 01 20 00 30 12       # Init of channels 1 and 3
5 BB 01 48 28 22 2C 1E    # Update of their settings
250 C0                    # Stop, which came at clock 240 and has waited until now
450 end",
    seen: "\
The record of the pulse at clock 245 has 9 bytes and begins at byte 27. In the wrong unit its last
four bytes lie beside the ring, and its channel, 03, where the Stop waited: the unit takes 03, the
Stop is lost, and the list goes on. In the proved unit the record goes on at byte 0, and the Stop
is taken.",
    source: "document 01",
    rule: "\
The tail lies from a start kept in the box (0 at first), round at the part's end. Each new record
first drops old ones until it fits, moving the start past them; other bytes stay.",
    proved: &[
        Theorem {
            name: "demand1",
            file: "crates/demands/proofs/Demand1.antt",
            says: "a byte or a tick, whatever it is lent, changes nothing outside the ring's part.",
        },
        Theorem {
            name: "calls_keep",
            file: "crates/trace/proofs/Theorems.antt",
            says: "a push changes no byte but those of its record, and these lie in the part.",
        },
        Theorem {
            name: "ring_holds_tail",
            file: "crates/trace/proofs/Theorems.antt",
            says: "the ring holds the longest tail of all records so far that fits.",
        },
    ],
};

/// The ring's part, and the place beside it in which a byte of the PC waits.
const RING: Part = Part { offset: 0, size: 32 };
const BESIDE: usize = 32;

/// The clocks at which the Stop comes, at which a record reaches the ring's end, and at which the
/// byte that waits is taken.
const COMES: u32 = 240;
const REACHED: u32 = 245;
const TAKEN: u32 = 250;

const STOP: u8 = 0xC0;

/// The ring and what is beside it: room for a record that begins in the ring's last byte.
type Memory = [u8; 40];

/// The proved machine, with a ring in a memory of its own.
struct InMemory<K> {
    guard: Guard,
    memory: Memory,
    /// Keeps in the memory what came of a call: the answer, and the new records by their bytes.
    keep: K,
    /// The memory as it was at some clocks.
    seen: Vec<(u32, Memory)>,
}

impl<K: FnMut(Call, Answer, &[u8], &mut Memory)> InMemory<K> {
    fn new(keep: K) -> InMemory<K> {
        let guard = Guard::new(Profile::LOOSEST, 4096).expect("profile and capacity are good");
        InMemory { guard, memory: [0; 40], keep, seen: Vec::new() }
    }
}

impl<K: FnMut(Call, Answer, &[u8], &mut Memory)> Unit for InMemory<K> {
    fn reaches(&self, call: Call) -> Call {
        match call {
            Call::Byte(_) if self.guard.clock() == TAKEN => Call::Byte(self.memory[BESIDE]),
            other => other,
        }
    }

    fn call(&mut self, call: Call) -> Told {
        let before = self.guard.record().ring.used as usize;
        let told = self.guard.call(call);
        let trace = self.guard.trace();
        (self.keep)(call, told.answer, &trace[before..], &mut self.memory);
        if call == Call::Tick {
            let clock = self.guard.clock();
            if clock == COMES {
                self.memory[BESIDE] = STOP;
            }
            if [COMES, REACHED].contains(&clock) {
                self.seen.push((clock, self.memory));
            }
        }
        told
    }

    fn guard(&self) -> &Guard {
        &self.guard
    }
}

pub fn teach(out: Out) -> Result<Drawn, Failure> {
    let session = PAGE.begin(out)?;
    let mut written = 0;
    let mut wrong = InMemory::new(|_, _, record: &[u8], memory: &mut Memory| {
        wrong::ring::push(memory, written, record);
        written += record.len();
    });
    // The same calls, on a proved box that is lent this memory.
    let mut lent = calls::make(Profile::LOOSEST, RING.size as u32).made;
    let mut proved = InMemory::new(|call, answer: Answer, _: &[u8], memory: &mut Memory| {
        let said = match call {
            Call::Byte(byte) => calls::byte_in_place(&mut lent, memory, RING, byte),
            Call::Tick => calls::tick_in_place(&mut lent, memory, RING),
        };
        assert_eq!(said.answer, u16::from(answer.number()), "the ring's size changes no answer");
    });
    let mut courses = Courses::of(2);
    let units: &mut [&mut dyn Unit] = &mut [&mut wrong, &mut proved];
    let each = |step| {
        courses.add(step);
        Ok(())
    };
    story::tell(&session, &["wrong", "proved"], units, each, out)?;
    writeln!(out, "\nThe memory around the ring's end, and at its front:\n")?;
    writeln!(out, "byte                27 28 29 30 31 | 32 33 34 35    0  1  2  3")?;
    for (name, seen) in [("wrong", wrong.seen), ("proved", proved.seen)] {
        for (clock, memory) in seen {
            let [end, beside, front] = [27..32, 32..36, 0..4].map(|at| hex::spelt(&memory[at]));
            let when = format!("{name}, clock {clock}");
            writeln!(out, "{when:20}{end} | {beside}   {front}")?;
        }
    }
    PAGE.end(out)?;
    Ok(Drawn::Courses {
        titles: ["wrong: the Stop at clock 250 is lost", "proved: the Stop at clock 250 is taken"],
        courses,
        end: session.end(),
    })
}
