//! What `host/src/raw` declares is what the libraries export, and `Answer` has their answers: the
//! sources are read and compared, item by item. No struct among them has a gap.

mod differences;
mod item;
mod rattle;
mod rust;
mod sources;
mod types;

mod altered;
mod answers;
mod exports;
mod gaps;
