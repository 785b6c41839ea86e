//! The exports for a ring by itself.

/// Where a ring's part lies in the lent buffer.
#[derive(Clone, Copy, Debug, Default, PartialEq, Eq)]
#[repr(C)]
pub struct Part {
    /// The place of the buffer at which it begins, counted from 0.
    pub offset: usize,
    /// How many bytes it has: as many as the ring's capacity, or a call is refused with 13.
    pub size: usize,
}

/// What a box keeps of its ring, the bytes themselves being in a part of lent memory.
#[derive(Clone, Copy, Debug, Default, PartialEq, Eq)]
#[repr(C)]
pub struct Ring {
    /// How many bytes the ring has room for, 16 to 4,096.
    pub capacity: u32,
    /// Where in the part its oldest byte stands, counted from 0: below the capacity.
    pub start: u32,
    /// How many bytes its records have, from the start on and round at the part's end: at most the
    /// capacity.
    pub used: u32,
}

/// What a push reports.
#[derive(Clone, Copy, Debug, Default, PartialEq, Eq)]
#[repr(C)]
pub struct Pushed {
    /// Document 01's number: 0, or 12 or 13 if nothing was pushed.
    pub answer: u32,
    /// The ring that the push leaves; on a refusal the one that it was given.
    pub ring: Ring,
}

/// What a readout reports.
#[derive(Clone, Copy, Debug, Default, PartialEq, Eq)]
#[repr(C)]
pub struct Readout {
    /// Document 01's number: 0, or 12, 13, 14 or 16 if nothing was copied.
    pub answer: u32,
    /// How many bytes were copied to the output's start; 0 on a refusal.
    pub used: u32,
}

extern "C" {
    pub(crate) fn yarrowbell_ring_ready(
        buf: *const u8,
        buf_length: usize,
        at: Part,
        ring: Ring,
    ) -> u8;
    pub(crate) fn yarrowbell_ring_push_answer(
        buf: *mut u8,
        buf_length: usize,
        at: Part,
        ring: Ring,
        clock: u32,
        ident: u8,
        answer: u8,
    ) -> Pushed;
    pub(crate) fn yarrowbell_ring_push_pulse(
        buf: *mut u8,
        buf_length: usize,
        at: Part,
        ring: Ring,
        clock: u32,
        channel: u8,
        width: u16,
        current: u8,
    ) -> Pushed;
    pub(crate) fn yarrowbell_ring_push_trip(
        buf: *mut u8,
        buf_length: usize,
        at: Part,
        ring: Ring,
        clock: u32,
        cause: u8,
    ) -> Pushed;
    pub(crate) fn yarrowbell_ring_read_out(
        buf: *const u8,
        buf_length: usize,
        at: Part,
        ring: Ring,
        out: *mut u8,
        out_length: usize,
    ) -> Readout;
}
