//! Codecs, ring, sheet and box in plain safe Rust, made to be fast: in place, without allocation, by
//! shifts and masks. The entry points are never inlined, so that a call is a call.

mod answer;
pub mod codec;
pub mod machine;
mod packets;
pub mod rehamove3;
pub mod rehastim2;
pub mod ring;
pub mod sheet;
