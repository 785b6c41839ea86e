//! A folder for a test's files.

use crate::run::{self, Ran};
use std::fs;
use std::path::{Path, PathBuf};

/// Removed in the end, and before it is made if an earlier run left it.
pub struct Folder(PathBuf);

impl Folder {
    /// Each test takes a name of its own.
    pub fn new(name: &str) -> Folder {
        let path = Path::new(env!("CARGO_TARGET_TMPDIR")).join(name);
        let _ = fs::remove_dir_all(&path);
        fs::create_dir_all(&path).expect("the target folder can be written");
        Folder(path)
    }

    /// The folder, with this file in it.
    pub fn with(self, name: &str, content: impl AsRef<[u8]>) -> Folder {
        self.put(name, content);
        self
    }

    pub fn put(&self, name: &str, content: impl AsRef<[u8]>) {
        fs::write(self.0.join(name), content).expect("the folder can be written");
    }

    pub fn remove(&self, name: &str) {
        fs::remove_file(self.0.join(name)).unwrap_or_else(|error| panic!("{name}: {error}"));
    }

    pub fn path(&self) -> &Path {
        &self.0
    }

    pub fn text(&self, name: &str) -> String {
        fs::read_to_string(self.0.join(name)).unwrap_or_else(|error| panic!("{name}: {error}"))
    }

    /// The names of all that is in it, in their order.
    pub fn names(&self) -> Vec<String> {
        let entries = fs::read_dir(&self.0).expect("the folder can be read");
        let name = |entry: fs::DirEntry| entry.file_name().into_string().expect("a name in UTF-8");
        let mut names: Vec<String> =
            entries.map(|entry| name(entry.expect("the folder can be read"))).collect();
        names.sort();
        names
    }

    /// Runs the program here, with the words of a line.
    pub fn line(&self, line: &str) -> Ran {
        self.fed(line, "")
    }

    /// Runs it here, with this on standard input.
    pub fn fed(&self, line: &str, input: impl AsRef<[u8]>) -> Ran {
        run::fed(&self.0, &line.split_whitespace().collect::<Vec<&str>>(), input.as_ref())
    }

    /// Runs it here on bad input: exit status 2, nothing printed, no file more, and this message.
    pub fn refuses(&self, line: &str, message: &str) {
        self.refuses_fed(line, "", message);
    }

    /// The same, with this on standard input.
    pub fn refuses_fed(&self, line: &str, input: impl AsRef<[u8]>, message: &str) {
        let before = self.names();
        let ran = self.fed(line, input);
        assert_eq!((ran.status, ran.out.as_str()), (2, ""), "{line}");
        assert_eq!(ran.err, format!("{message}\n"), "{line}");
        assert_eq!(self.names(), before, "{line}");
    }
}

impl Drop for Folder {
    fn drop(&mut self) {
        let _ = fs::remove_dir_all(&self.0);
    }
}
