//! A box record's bytes.

use crate::raw::BoxRecord;
use std::mem::size_of;
use std::ptr;

impl BoxRecord {
    /// The record as it lies in memory.
    pub fn bytes(&self) -> &[u8; size_of::<BoxRecord>()] {
        // SAFETY: the array is as long as the record, and each of its bytes has a value: no struct
        // in a record has a byte that is no field's, which `tests/declarations` holds for all.
        unsafe { &*ptr::from_ref(self).cast() }
    }
}
