//! What the packets of every device share: they stand between F0 and 0F with their bytes stuffed, a
//! reader answers by the same numbers, and a capture is a row of them.

mod capture;
mod named;
mod not_read;

pub use capture::{Captured, Found, Packets};
pub(crate) use named::named;
pub use not_read::NotRead;
