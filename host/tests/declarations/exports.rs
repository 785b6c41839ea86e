use crate::differences::differences;
use crate::item::gathered;
use crate::{rattle, rust, sources};

/// Every struct with its fields and every function with its parameters and its result, in whichever
/// crate it stands.
#[test]
fn the_declarations_are_the_exports() {
    let crates = sources::below("crates", ".rt");
    let raw = sources::below("host/src/raw", ".rs");
    let exported = gathered(crates.iter().flat_map(|(file, text)| rattle::items(file, text)));
    let declared = gathered(raw.iter().flat_map(|(file, text)| rust::items(file, text)));
    let differences = differences(&exported, &declared);
    assert!(differences.is_empty(), "\n{}", differences.join("\n"));
}
