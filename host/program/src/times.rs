//! The times of a list, in tenths of a millisecond (document 01, "The machine").

/// The main period that a Main_Time gives.
pub fn t1(main_time: u16) -> u32 {
    5 * u32::from(main_time) + 10
}

/// The group interval that a Group_Time gives.
pub fn t2(group_time: u16) -> u32 {
    5 * u32::from(group_time) + 15
}
