//! The numbers that the box answers.

use std::fmt;

/// Makes the answers of a table: number, name, words.
macro_rules! answers {
    ($($number:literal $name:ident $words:literal)*) => {
        /// An answer of document 01, "Numbers the box answers".
        #[derive(Clone, Copy, Debug, PartialEq, Eq)]
        #[repr(u8)]
        pub enum Answer {
            $(
                #[doc = concat!(stringify!($number), ": ", $words, ".")]
                $name = $number,
            )*
        }

        impl Answer {
            /// Every answer, in the order of the numbers.
            pub const ALL: [Answer; [$($number),*].len()] = [$(Answer::$name),*];

            /// Of a number in whatever width a report has for it.
            pub fn from_number(number: impl Into<u64>) -> Option<Answer> {
                match number.into() {
                    $($number => Some(Answer::$name),)*
                    _ => None,
                }
            }
        }

        impl fmt::Display for Answer {
            fn fmt(&self, out: &mut fmt::Formatter) -> fmt::Result {
                out.pad(match self {
                    $(Answer::$name => $words,)*
                })
            }
        }
    };
}

answers! {
    0 Done "command carried out, or tick taken"
    1 Unfinished "byte taken, frame unfinished"
    2 LowByte "low byte, no frame open"
    3 WrongCheck "wrong check"
    4 NotGood "value not good"
    5 Timing "timing rule broken"
    6 NoList "Update, no list"
    7 ListRuns "Single while a list runs"
    8 InHold "Single during a hold"
    9 OverLimit "over a limit"
    10 WhileTripped "Update or Single while tripped"
    11 ProfileNotGood "profile not good"
    12 BoxNotGood "box record not good"
    13 RingOutside "ring part outside the lent buffer, or its size not the box's capacity"
    14 RingUnknown "used ring bytes do not split into whole known records"
    15 ClockAtEnd "clock at its end"
    16 OutputTooShort "output too short"
    17 Cut "frame cut: a high byte before the frame's end"
}

impl Answer {
    /// Document 01's number.
    pub fn number(self) -> u8 {
        self as u8
    }

    /// Whether a byte that is given it has decided a command: 0, 3 to 10.
    pub fn decides(self) -> bool {
        !self.refuses() && !matches!(self, Answer::Unfinished | Answer::LowByte)
    }

    /// Whether a call that is given it has changed nothing: 11 to 17.
    pub fn refuses(self) -> bool {
        self.number() >= Answer::ProfileNotGood.number()
    }

    /// The answer that the library gave by its number.
    pub(crate) fn known(number: impl Into<u64>) -> Answer {
        Answer::from_number(number).expect("the library answers by the numbers of document 01")
    }
}
