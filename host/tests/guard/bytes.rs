//! The exports for a box once more, declared on bytes alone, so that every byte that the library
//! leaves is seen. Structs as large go through memory.

use std::mem::{offset_of, size_of};
use yarrowbell::raw::{BoxRecord, Called, Made, Part, Profile, Said};
use yarrowbell::Answer;

/// As many bytes as a struct has, aligned as it is.
#[derive(Clone, Copy, Debug, PartialEq, Eq)]
#[repr(C)]
pub struct Bytes<S, const SIZE: usize> {
    aligned: [S; 0],
    pub all: [u8; SIZE],
}

pub type ProfileBytes = Bytes<Profile, { size_of::<Profile>() }>;
pub type BoxBytes = Bytes<BoxRecord, { size_of::<BoxRecord>() }>;
pub type SaidBytes = Bytes<Said, { size_of::<Said>() }>;
pub type MadeBytes = Bytes<Made, { size_of::<Made>() }>;
pub type CalledBytes = Bytes<Called, { size_of::<Called>() }>;

impl<S, const SIZE: usize> Bytes<S, SIZE> {
    pub fn new(all: [u8; SIZE]) -> Bytes<S, SIZE> {
        Bytes { aligned: [], all }
    }
}

extern "C" {
    fn yarrowbell_make(profile: ProfileBytes, capacity: u32) -> MadeBytes;
    fn yarrowbell_byte(
        b: BoxBytes,
        buf: *mut u8,
        buf_length: usize,
        at: Part,
        n: u8,
    ) -> CalledBytes;
    fn yarrowbell_tick(b: BoxBytes, buf: *mut u8, buf_length: usize, at: Part) -> CalledBytes;
    fn yarrowbell_byte_in_place(
        b: *mut BoxBytes,
        buf: *mut u8,
        buf_length: usize,
        at: Part,
        n: u8,
    ) -> SaidBytes;
    fn yarrowbell_tick_in_place(
        b: *mut BoxBytes,
        buf: *mut u8,
        buf_length: usize,
        at: Part,
    ) -> SaidBytes;
}

pub fn make(profile: ProfileBytes, capacity: u32) -> MadeBytes {
    // SAFETY: it takes and gives numbers alone.
    unsafe { yarrowbell_make(profile, capacity) }
}

/// A box in place, with a ring that fills its buffer.
#[derive(Clone)]
pub struct Unit {
    pub record: Box<BoxBytes>,
    pub ring: Vec<u8>,
}

impl Unit {
    fn part(&self) -> Part {
        Part { offset: 0, size: self.ring.len() }
    }

    pub fn byte(&mut self, n: u8) -> SaidBytes {
        let (before, mut ring, at) = (self.clone(), self.ring.clone(), self.part());
        let (buf, length) = (ring.as_mut_ptr(), ring.len());
        // SAFETY: the buffer is lent to this call alone.
        let called = unsafe { yarrowbell_byte(*self.record, buf, length, at, n) };
        let buf = self.ring.as_mut_ptr();
        // SAFETY: the record and the buffer are lent to this call alone.
        let said = unsafe { yarrowbell_byte_in_place(&mut *self.record, buf, length, at, n) };
        self.compare(&before, &said, &called, &ring);
        said
    }

    pub fn tick(&mut self) -> SaidBytes {
        let (before, mut ring, at) = (self.clone(), self.ring.clone(), self.part());
        let (buf, length) = (ring.as_mut_ptr(), ring.len());
        // SAFETY: the buffer is lent to this call alone.
        let called = unsafe { yarrowbell_tick(*self.record, buf, length, at) };
        let buf = self.ring.as_mut_ptr();
        // SAFETY: the record and the buffer are lent to this call alone.
        let said = unsafe { yarrowbell_tick_in_place(&mut *self.record, buf, length, at) };
        self.compare(&before, &said, &called, &ring);
        said
    }

    /// What a call in place has said and left is what the call by value hands back and leaves, byte
    /// by byte. A refusal has left all.
    fn compare(&self, before: &Unit, said: &SaidBytes, called: &CalledBytes, ring: &[u8]) {
        let (by_value, next) = (offset_of!(Called, said), offset_of!(Called, next));
        same("what is said", &said.all, &called.all[by_value..][..size_of::<Said>()]);
        same("the record", &self.record.all, &called.all[next..][..size_of::<BoxRecord>()]);
        same("the ring", &self.ring, ring);
        let answer = Answer::from_number(said.all[offset_of!(Said, answer)]);
        if answer.is_some_and(Answer::refuses) {
            same("the record after a refusal", &self.record.all, &before.record.all);
            same("the ring after a refusal", &self.ring, &before.ring);
        }
    }
}

pub fn same(what: &str, found: &[u8], expected: &[u8]) {
    assert_eq!(found.len(), expected.len(), "{what}");
    let places = (0..found.len()).filter(|&place| found[place] != expected[place]);
    let places: Vec<usize> = places.collect();
    assert!(places.is_empty(), "{what} differs in the bytes {places:?}");
}
