//! Every export for frames against the independent codec, and against what the papers say outright.

mod agree;
mod random;
#[path = "../shared/seeded.rs"]
mod seeded;

mod answers;
mod checks;
mod counts;
mod damage;
mod init;
mod kinds;
mod not_done;
mod outputs;
mod papers;
mod replies;
mod round_trips;
mod single;
mod stop;
mod update;
mod writers;
