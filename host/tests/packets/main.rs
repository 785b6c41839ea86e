//! Every export for ScienceMode2 packets, and what a host program uses of them, against the
//! independent codec and against what source 000 and document 02 say outright.

mod agree;
mod device;
#[path = "../shared/random_bytes.rs"]
mod random_bytes;
#[path = "../shared/random_packets.rs"]
mod random_packets;
#[path = "../shared/seeded.rs"]
mod seeded;

// What is tried on the packets of every device.
#[path = "../shared/capture.rs"]
mod capture;
#[path = "../shared/damage.rs"]
mod damage;
#[path = "../shared/garbage.rs"]
mod garbage;
#[path = "../shared/many.rs"]
mod many;

mod checksums;
mod data;
mod kinds;
mod not_done;
mod outputs;
mod papers;
mod round_trips;
mod values;
mod words;
