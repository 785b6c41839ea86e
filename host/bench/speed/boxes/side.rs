//! The sides that are compared: the library's box changed in place, its box handed over and handed
//! back, and the plain box, which is changed in place.

use independent::plain::machine::{self, BoxRecord};
use independent::Part;
use soak::alike;
use yarrowbell::{calls, raw};

pub trait Side {
    const NAME: &'static str;
    type Record: Copy;
    type Said;

    fn record(plain: &BoxRecord) -> Self::Record;

    fn byte(record: &mut Self::Record, buffer: &mut [u8], at: Part, byte: u8) -> Self::Said;

    fn tick(record: &mut Self::Record, buffer: &mut [u8], at: Part) -> Self::Said;

    /// A record as the library has it.
    fn raw_record(record: &Self::Record) -> raw::BoxRecord;

    /// What a call says as the library has it.
    fn raw_said(said: Self::Said) -> raw::Said;
}

pub struct InPlace;
pub struct ByValue;
pub struct Plain;

impl Side for InPlace {
    const NAME: &'static str = "in place";
    type Record = raw::BoxRecord;
    type Said = raw::Said;

    fn record(plain: &BoxRecord) -> raw::BoxRecord {
        alike::record(plain)
    }

    #[inline(always)]
    fn byte(record: &mut raw::BoxRecord, buffer: &mut [u8], at: Part, byte: u8) -> raw::Said {
        calls::byte_in_place(record, buffer, alike::part(at), byte)
    }

    #[inline(always)]
    fn tick(record: &mut raw::BoxRecord, buffer: &mut [u8], at: Part) -> raw::Said {
        calls::tick_in_place(record, buffer, alike::part(at))
    }

    fn raw_record(record: &raw::BoxRecord) -> raw::BoxRecord {
        *record
    }

    fn raw_said(said: raw::Said) -> raw::Said {
        said
    }
}

impl Side for ByValue {
    const NAME: &'static str = "by value";
    type Record = raw::BoxRecord;
    type Said = raw::Said;

    fn record(plain: &BoxRecord) -> raw::BoxRecord {
        alike::record(plain)
    }

    #[inline(always)]
    fn byte(record: &mut raw::BoxRecord, buffer: &mut [u8], at: Part, byte: u8) -> raw::Said {
        let called = calls::byte(*record, buffer, alike::part(at), byte);
        *record = called.next;
        called.said
    }

    #[inline(always)]
    fn tick(record: &mut raw::BoxRecord, buffer: &mut [u8], at: Part) -> raw::Said {
        let called = calls::tick(*record, buffer, alike::part(at));
        *record = called.next;
        called.said
    }

    fn raw_record(record: &raw::BoxRecord) -> raw::BoxRecord {
        *record
    }

    fn raw_said(said: raw::Said) -> raw::Said {
        said
    }
}

impl Side for Plain {
    const NAME: &'static str = "plain";
    type Record = BoxRecord;
    type Said = machine::Said;

    fn record(plain: &BoxRecord) -> BoxRecord {
        *plain
    }

    #[inline(always)]
    fn byte(record: &mut BoxRecord, buffer: &mut [u8], at: Part, byte: u8) -> machine::Said {
        record.byte(buffer, at, byte)
    }

    #[inline(always)]
    fn tick(record: &mut BoxRecord, buffer: &mut [u8], at: Part) -> machine::Said {
        record.tick(buffer, at)
    }

    fn raw_record(record: &BoxRecord) -> raw::BoxRecord {
        alike::record(record)
    }

    fn raw_said(said: machine::Said) -> raw::Said {
        alike::said(said)
    }
}
