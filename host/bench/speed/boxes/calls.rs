//! Calls of one kind, one after the other.

#[derive(Clone, Debug)]
pub enum Calls {
    Bytes(Vec<u8>),
    Ticks(usize),
}

impl Calls {
    pub fn number(&self) -> usize {
        match self {
            Calls::Bytes(bytes) => bytes.len(),
            Calls::Ticks(number) => *number,
        }
    }
}
