//! What is wrong in the lessons, on purpose. A lesson prints the file that it runs.

pub mod charge;
pub mod fields;
pub mod limits;
pub mod ring;
