//! A list of differences of one kind.

use crate::failure::{Failure, Out};
use crate::words::thousands;

/// How many are kept of a list that is not told as a whole.
const FEW: usize = 20;

/// The differences that are kept, which are the first ones, and how many there are.
pub struct Tally<T> {
    all: bool,
    kept: Vec<T>,
    count: u64,
}

impl<T> Tally<T> {
    /// Keeps all, or few: a long session may have more than there is memory.
    pub fn new(all: bool) -> Tally<T> {
        Tally { all, kept: Vec::new(), count: 0 }
    }

    pub fn add(&mut self, one: T) {
        self.count += 1;
        if self.all || self.kept.len() < FEW {
            self.kept.push(one);
        }
    }

    pub fn count(&self) -> u64 {
        self.count
    }

    pub fn first(&self) -> Option<&T> {
        self.kept.first()
    }

    /// Prints how many there are, and below it those that are kept, each in its words.
    pub fn tell(&self, what: &str, told: impl Fn(&T) -> String, out: Out) -> Result<(), Failure> {
        writeln!(out, "{what}: {}", thousands(self.count))?;
        for one in &self.kept {
            writeln!(out, "  {}", told(one))?;
        }
        let more = self.count - self.kept.len() as u64;
        if more > 0 {
            writeln!(out, "  .. and {} more (--all shows them)", thousands(more))?;
        }
        Ok(())
    }
}

#[cfg(test)]
mod tests {
    use super::{Tally, FEW};

    fn listed(all: bool) -> Tally<u32> {
        let mut listed = Tally::new(all);
        (0..2_951).for_each(|number| listed.add(number));
        listed
    }

    #[test]
    fn few_are_kept() {
        let listed = listed(false);
        assert_eq!((listed.kept.len(), listed.count()), (FEW, 2_951));
        let mut out = Vec::new();
        listed.tell("Numbers", |number| format!("number {number}"), &mut out).expect("it prints");
        let out = String::from_utf8(out).expect("it is text");
        let lines: Vec<&str> = out.lines().collect();
        assert_eq!(lines[..2], ["Numbers: 2,951", "  number 0"]);
        assert_eq!(lines[FEW..], ["  number 19", "  .. and 2,931 more (--all shows them)"]);
    }

    #[test]
    fn or_all() {
        assert_eq!(listed(true).kept, (0..2_951).collect::<Vec<u32>>());
    }
}
