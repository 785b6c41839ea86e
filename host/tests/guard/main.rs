//! The box: where its numbers lie on both sides of the boundary, and the guard that a host program
//! uses.

mod bytes;
mod papers;
mod places;
mod profiles;
mod refusals;
mod replies;
#[path = "../shared/seeded.rs"]
mod seeded;
mod sent;
mod trips;
