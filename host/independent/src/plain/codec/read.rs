//! The readers: of any frame, and of the fields of one kind.

use super::frame::{self, Frame};
use crate::{Init, Setting, Single};

/// Any frame. The fields of the other kinds are zero; of a refusal all but the answer.
#[derive(Clone, Copy, Debug, Default, PartialEq, Eq)]
pub struct Read {
    pub answer: u8,
    pub ident: u8,
    pub used: usize,
    pub init: Init,
    pub settings: [Setting; 8],
    pub single: Single,
}

/// Any frame, with the fields of an Init: zero where it is none.
#[derive(Clone, Copy, Debug, Default, PartialEq, Eq)]
pub struct ReadInit {
    pub answer: u8,
    pub ident: u8,
    pub used: usize,
    pub init: Init,
}

/// Any frame, with the fields of an Update: zero where it is none.
#[derive(Clone, Copy, Debug, Default, PartialEq, Eq)]
pub struct ReadUpdate {
    pub answer: u8,
    pub ident: u8,
    pub used: usize,
    pub settings: [Setting; 8],
}

/// Any frame. A Stop has no fields.
#[derive(Clone, Copy, Debug, Default, PartialEq, Eq)]
pub struct ReadStop {
    pub answer: u8,
    pub ident: u8,
    pub used: usize,
}

/// Any frame, with the fields of a Single: zero where it is none.
#[derive(Clone, Copy, Debug, Default, PartialEq, Eq)]
pub struct ReadSingle {
    pub answer: u8,
    pub ident: u8,
    pub used: usize,
    pub single: Single,
}

#[inline(never)]
pub fn read(bytes: &[u8], count: usize) -> Read {
    let frame = match frame::read(bytes, count) {
        Ok(frame) => frame,
        Err(answer) => return Read { answer, ..Read::default() },
    };
    let (ident, used) = frame.told();
    let read = Read { ident, used, ..Read::default() };
    match frame {
        Frame::Init(init) => Read { init, ..read },
        Frame::Update(settings, _) => Read { settings, ..read },
        Frame::Stop => read,
        Frame::Single(single) => Read { single, ..read },
    }
}

#[inline(never)]
pub fn read_init(bytes: &[u8], count: usize) -> ReadInit {
    let frame = match frame::read(bytes, count) {
        Ok(frame) => frame,
        Err(answer) => return ReadInit { answer, ..ReadInit::default() },
    };
    let (ident, used) = frame.told();
    let read = ReadInit { ident, used, ..ReadInit::default() };
    match frame {
        Frame::Init(init) => ReadInit { init, ..read },
        _ => read,
    }
}

#[inline(never)]
pub fn read_update(bytes: &[u8], count: usize) -> ReadUpdate {
    let frame = match frame::read(bytes, count) {
        Ok(frame) => frame,
        Err(answer) => return ReadUpdate { answer, ..ReadUpdate::default() },
    };
    let (ident, used) = frame.told();
    let read = ReadUpdate { ident, used, ..ReadUpdate::default() };
    match frame {
        Frame::Update(settings, _) => ReadUpdate { settings, ..read },
        _ => read,
    }
}

#[inline(never)]
pub fn read_stop(bytes: &[u8], count: usize) -> ReadStop {
    match frame::read(bytes, count) {
        Ok(frame) => {
            let (ident, used) = frame.told();
            ReadStop { ident, used, ..ReadStop::default() }
        }
        Err(answer) => ReadStop { answer, ..ReadStop::default() },
    }
}

#[inline(never)]
pub fn read_single(bytes: &[u8], count: usize) -> ReadSingle {
    let frame = match frame::read(bytes, count) {
        Ok(frame) => frame,
        Err(answer) => return ReadSingle { answer, ..ReadSingle::default() },
    };
    let (ident, used) = frame.told();
    let read = ReadSingle { ident, used, ..ReadSingle::default() };
    match frame {
        Frame::Single(single) => ReadSingle { single, ..read },
        _ => read,
    }
}
