//! A list and its times, in tenths.

use super::Profile;
use crate::Init;

/// How many bits a half byte has.
const COUNTS: [u8; 16] = [0, 1, 1, 2, 1, 2, 2, 3, 1, 2, 2, 3, 2, 3, 3, 4];

/// How many channels of a list module A (channels 1 to 4) has.
#[inline(always)]
pub(super) fn count_a(list: &Init) -> u8 {
    COUNTS[usize::from(list.channel_stim & 15)]
}

/// How many channels of a list module B (channels 5 to 8) has.
#[inline(always)]
pub(super) fn count_b(list: &Init) -> u8 {
    COUNTS[usize::from(list.channel_stim >> 4)]
}

/// How many bytes the list's Update has: "1 + 3 per listed channel".
#[inline(always)]
pub(super) fn update_length(list: &Init) -> usize {
    1 + 3 * usize::from(count_a(list) + count_b(list))
}

/// "t1 = 5·Main_Time + 10".
#[inline(always)]
pub(super) fn t1(list: &Init) -> u32 {
    5 * u32::from(list.main_time) + 10
}

/// "t2 = 5·Group_Time + 15".
#[inline(always)]
pub(super) fn t2(list: &Init) -> u32 {
    5 * u32::from(list.group_time) + 15
}

/// "t2 at least 15 times the larger of the channel counts of modules A (channels 1 to 4) and B (5 to
/// 8)".
#[inline(always)]
pub(super) fn keeps_first_rule(list: &Init) -> bool {
    t2(list) >= 15 * u32::from(count_a(list).max(count_b(list)))
}

/// "t1 at least n·t2 + 15, n being the largest Mode plus 1."
#[inline(always)]
pub(super) fn keeps_second_rule(list: &Init, largest_mode: u8) -> bool {
    t1(list) >= (u32::from(largest_mode) + 1) * t2(list) + 15
}

/// "Init is over a limit if t1 is below the shortest."
#[inline(always)]
pub(super) fn over(list: &Init, profile: &Profile) -> bool {
    t1(list) < profile.shortest
}
