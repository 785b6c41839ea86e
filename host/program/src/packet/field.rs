//! What is known of a field of packets.

use std::fmt::Debug;

/// A field of a packet, as the paper of its device names it.
pub trait Field: Copy + Debug + Eq + 'static {
    fn name(self) -> &'static str;

    /// As scripts have it.
    fn key(self) -> String {
        self.name().to_lowercase().replace(' ', "_")
    }

    /// Whether its bits mean nothing, and are told only if they are not as they should be.
    fn is_reserved(self) -> bool {
        false
    }

    /// The number that its bits give.
    fn number(self, bits: u16) -> i32 {
        bits.into()
    }

    /// Whether a value is good, and the rule for that. The library decides by the same rules; this
    /// finds the value at fault.
    fn judged(self, value: i32) -> (bool, &'static str);

    /// The rule, if the value is not good.
    fn broken(self, value: i32) -> Option<&'static str> {
        let (good, rule) = self.judged(value);
        (!good).then_some(rule)
    }

    fn rule(self) -> &'static str {
        self.judged(0).1
    }

    /// The paper's word for a value, if it has one.
    fn word(self, value: i32) -> Option<&'static str>;

    /// That word in a command line.
    fn spelt(self, value: i32) -> Option<String> {
        self.word(value).map(spelt)
    }

    /// What stands behind the number: its unit or its meaning.
    fn meaning(self, value: i32) -> String;
}

/// Words as one word of a command line: in small letters, with hyphens.
pub fn spelt(words: &str) -> String {
    words.to_lowercase().replace(' ', "-")
}

/// A field's value.
#[derive(Clone, Copy, Debug, PartialEq, Eq)]
pub struct Value<F> {
    pub field: F,
    /// Which point's it is, counted from 1; 0 if it stands once.
    pub point: usize,
    pub number: i32,
}

impl<F> Value<F> {
    pub fn once(field: F, number: impl Into<i32>) -> Value<F> {
        Value { field, point: 0, number: number.into() }
    }
}
