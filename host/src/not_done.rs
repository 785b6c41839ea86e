//! Why no frame was read or written.

use crate::Answer;
use std::error::Error;
use std::fmt;

/// Makes a type of the answers that a call gives where it does nothing, each with what it says.
macro_rules! not_done {
    ($($about:literal $name:ident { $($answer:ident $says:literal)* })*) => {$(
        #[doc = $about]
        #[derive(Clone, Copy, Debug, PartialEq, Eq)]
        pub enum $name {
            $(#[doc = $says] $answer,)*
        }

        impl $name {
            /// The answer of this name.
            pub fn answer(self) -> Answer {
                match self {
                    $($name::$answer => Answer::$answer,)*
                }
            }

            /// What the library gave as its answer, or nothing if that is 0.
            pub(crate) fn known(number: u8) -> Option<$name> {
                match Answer::known(number) {
                    Answer::Done => None,
                    $(Answer::$answer => Some($name::$answer),)*
                    other => panic!("{}: {other:?}", stringify!($name)),
                }
            }
        }

        impl fmt::Display for $name {
            fn fmt(&self, out: &mut fmt::Formatter) -> fmt::Result {
                write!(out, "answer {}: {}", self.answer().number(), self.answer())
            }
        }

        impl Error for $name {}
    )*};
}

not_done! {
    "Why no frame was read."
    NotRead {
        Unfinished "The bytes end before the frame does."
        LowByte "The first byte is low, and a frame begins with a high one."
        WrongCheck "Check is not what the sum of the variables makes it."
        NotGood "A value is not good, or the number of listed channels is not 1 to 8."
        Cut "A high byte stands before the frame's end."
    }

    "Why no frame was written."
    NotWritten {
        NotGood "A value is not good, or an Update's number of listed channels is not 1 to 8."
        OutputTooShort "The output has fewer bytes than the frame."
    }
}
