//! Every export for packets of the RehaMove3, and what a host program uses of them, against the
//! independent codec and against what source 002 and document 02 say outright.

mod agree;
mod device;
#[path = "../shared/random_bytes.rs"]
mod random_bytes;
#[path = "../shared/random_pulses.rs"]
mod random_pulses;
#[path = "../shared/seeded.rs"]
mod seeded;

// What is tried on the packets of every device.
#[path = "../shared/capture.rs"]
mod capture;
#[path = "../shared/damage.rs"]
mod damage;
#[path = "../shared/garbage.rs"]
mod garbage;
#[path = "../shared/many.rs"]
mod many;

mod charges;
mod headers;
mod kinds;
mod lengths;
mod longest;
mod made;
mod not_done;
mod outputs;
mod papers;
mod points;
mod reserved;
mod round_trips;
mod stuffing;
mod values;
mod words;
