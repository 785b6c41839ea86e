//! The files that the demo writes.

use crate::failure::BadInput;
use std::fs::{self, File};
use std::io::{self, Read};

/// A file, what is in it, and its first line, by which the demo knows it again.
pub struct Marked {
    pub name: &'static str,
    pub holds: &'static str,
    pub mark: &'static str,
}

pub const FILES: [Marked; 3] = [
    Marked {
        name: "demo-lax.trace",
        holds: "the trace of the lax unit",
        mark: "# case 12, lax unit",
    },
    Marked {
        name: "demo-strict.trace",
        holds: "the trace of the strict unit",
        mark: "# case 12, strict unit",
    },
    Marked {
        name: "demo.svg",
        holds: "the picture",
        mark: "<!-- case 12, as yarrowbell demo draws it -->",
    },
];

/// Refuses if files of these names are there that the demo did not write.
pub fn none_of_others() -> Result<(), BadInput> {
    let others = FILES.iter().filter(|file| file.is_of_another()).map(|file| file.name);
    let others: Vec<&str> = others.collect();
    if others.is_empty() {
        return Ok(());
    }
    let what = "not written by the demo, and not overwritten without --force";
    Err(BadInput::argument(&others.join(", "), what))
}

impl Marked {
    /// One that cannot be read is not the demo's.
    fn is_of_another(&self) -> bool {
        let is_file = fs::metadata(self.name).is_ok_and(|there| there.is_file());
        is_file && !self.is_marked().unwrap_or(false)
    }

    fn is_marked(&self) -> io::Result<bool> {
        let line = format!("{}\n", self.mark);
        let mut first = Vec::new();
        File::open(self.name)?.take(line.len() as u64).read_to_end(&mut first)?;
        Ok(first == line.as_bytes())
    }
}
