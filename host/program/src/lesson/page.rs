//! What every lesson prints, from its title to what is proved.

use crate::failure::{Failure, Out};
use crate::session::Session;
use std::path::Path;

/// The words of a lesson, in their order.
pub struct Page {
    pub title: &'static str,
    pub mistake: &'static str,
    /// The wrong code.
    pub code: &'static str,
    /// What the units are.
    pub units: &'static str,
    /// A session, or whatever else they are given.
    pub input: &'static str,
    /// What came of it, in a few words.
    pub seen: &'static str,
    /// A document, and its own sentences.
    pub source: &'static str,
    pub rule: &'static str,
    pub proved: &'static [Theorem],
}

/// A theorem by its name, the file that has its proof, and what it says.
pub struct Theorem {
    pub name: &'static str,
    pub file: &'static str,
    pub says: &'static str,
}

impl Page {
    /// Prints what stands before the play, and hands back the session.
    pub fn begin(&self, out: Out) -> Result<Session, Failure> {
        self.open("session", out)?;
        let session = Session::of_text(self.input, Path::new(self.title));
        Ok(session.expect("the lesson's own session is written as a session file"))
    }

    /// The same, of an input of this name.
    pub fn open(&self, name: &str, out: Out) -> Result<(), Failure> {
        writeln!(out, "Lesson {}\n\nThe mistake: {}\n", self.title, self.mistake)?;
        writeln!(out, "The wrong code, which runs here:\n")?;
        indented(self.code, out)?;
        writeln!(out, "\n{}\n\nThe {name}:\n", self.units)?;
        indented(self.input, out)?;
        Ok(writeln!(out)?)
    }

    /// Prints what stands behind the play.
    pub fn end(&self, out: Out) -> Result<(), Failure> {
        writeln!(out, "\n{}\n\nThe rule, in {}'s words:\n", self.seen, self.source)?;
        indented(self.rule, out)?;
        writeln!(out, "\nWhat is proved:\n")?;
        for Theorem { name, file, says } in self.proved {
            indented(&format!("{name} in {file}:\n  {says}"), out)?;
        }
        Ok(())
    }
}

fn indented(text: &str, out: Out) -> Result<(), Failure> {
    for line in text.lines() {
        writeln!(out, "{}", format!("    {line}").trim_end())?;
    }
    Ok(())
}
