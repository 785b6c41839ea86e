//! What a call tells.

/// A pulse as it is released; all zero where none is.
#[derive(Clone, Copy, Debug, Default, PartialEq, Eq)]
pub struct Pulse {
    pub clock: u32,
    pub channel: u8,
    pub width: u16,
    pub current: u8,
}

/// An answer, the reply (0 where no command was decided), and the pulses of modules A and B.
#[derive(Clone, Copy, Debug, Default, PartialEq, Eq)]
pub struct Said {
    pub answer: u8,
    pub reply: u8,
    pub a: Pulse,
    pub b: Pulse,
}

impl Said {
    /// An answer and nothing else.
    #[inline(always)]
    pub(super) fn only(answer: u8) -> Said {
        Said { answer, ..Said::default() }
    }
}
