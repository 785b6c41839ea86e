//! The exports for sheets, and what a host program uses of them, against both independent sheets and
//! against what request 03 says outright.

mod agree;
mod lines;
#[path = "../shared/random_sheets.rs"]
mod random_sheets;
mod refused;
#[path = "../shared/seeded.rs"]
mod seeded;

mod bytes;
mod damage;
mod ends;
mod fields;
mod headers;
mod long;
mod not_done;
mod order;
mod outputs;
mod papers;
mod random;
mod ranges;
mod traces;
