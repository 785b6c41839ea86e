//! The sources of both sides in the repository.

use std::fs;
use std::path::{Path, PathBuf};

fn repository() -> PathBuf {
    Path::new(env!("CARGO_MANIFEST_DIR")).join("..")
}

/// Every file below a folder that ends so: its path in the repository, and its text. What `rt` makes
/// of a crate, its folder `out`, has copies of sources, and is passed over.
pub fn below(folder: &str, ending: &str) -> Vec<(String, String)> {
    let path = repository().join(folder);
    let entries = fs::read_dir(&path).unwrap_or_else(|error| panic!("{folder}: {error}"));
    let mut found = Vec::new();
    for entry in entries {
        let entry = entry.unwrap_or_else(|error| panic!("{folder}: {error}"));
        let name = format!("{folder}/{}", entry.file_name().to_string_lossy());
        if entry.file_name() == "out" {
            continue;
        }
        if entry.path().is_dir() {
            found.extend(below(&name, ending));
        } else if name.ends_with(ending) {
            let text = text(&name);
            found.push((name, text));
        }
    }
    found
}

pub fn text(file: &str) -> String {
    fs::read_to_string(repository().join(file)).unwrap_or_else(|error| panic!("{file}: {error}"))
}
