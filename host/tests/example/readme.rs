//! The lines that README tells a user to write.

/// The indented block that begins so, without its indentation.
pub fn block(beginning: &str) -> String {
    let begins = "    ".to_owned() + beginning;
    let lines = include_str!("../../../README.md").lines();
    let block: Vec<&str> = lines
        .skip_while(|line| !line.starts_with(&begins))
        .take_while(|line| line.is_empty() || line.starts_with("    "))
        .map(str::trim_start)
        .collect();
    assert!(!block.is_empty(), "README has no block that begins with {beginning}");
    block.join("\n")
}
