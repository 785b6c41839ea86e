//! The fast codecs and the fast ring against the slow ones; the box against what document 01 says
//! outright, and along random histories.

mod counted;
mod naive;
mod played;
mod random;
#[path = "../../../tests/shared/random_bytes.rs"]
mod random_bytes;
#[path = "../../../tests/shared/random_packets.rs"]
mod random_packets;
#[path = "../../../tests/shared/random_pulses.rs"]
mod random_pulses;
mod script;
#[path = "../../../tests/shared/seeded.rs"]
mod seeded;

mod codec;
mod damage;
mod histories;
mod packets;
mod pairs;
mod papers;
mod profiles;
mod pulses_read;
mod pulses_written;
mod ring;
