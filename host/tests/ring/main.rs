//! Every export of the ring against the independent ring, and against what document 01 says
//! outright.

mod agree;
#[path = "../shared/held.rs"]
mod held;
mod lent;
mod placed;
mod random;
#[path = "../shared/seeded.rs"]
mod seeded;

mod damage;
mod histories;
mod kinds;
mod neighbours;
mod numbers;
mod order;
mod outputs;
mod papers;
mod parts;
mod records;
mod tails;
mod taken_apart;
