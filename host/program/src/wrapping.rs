//! Texts in lines that are no wider than a column.

use textwrap::Options;

/// A space at which no line ends, and which is printed as any other.
const FIXED: &str = "\u{A0}";

/// What stays with the number before it or behind it.
const WITH_NUMBERS: [&str; 5] = [" mA", " µs", " nC", " ms", "reply "];

/// The lines of a text. The first is indented by this, the others by four spaces.
pub fn wrapped(text: &str, indent: &str, width: usize) -> Vec<String> {
    // Most have room, and a capture has a million of them.
    if indent.len() + text.chars().count() <= width {
        return vec![format!("{indent}{}", text.replace(FIXED, " "))];
    }
    let options = Options::new(width).initial_indent(indent).subsequent_indent("    ");
    let mut text = text.to_owned();
    for words in WITH_NUMBERS {
        text = text.replace(words, &words.replace(' ', FIXED));
    }
    textwrap::wrap(&text, options).iter().map(|line| line.replace(FIXED, " ")).collect()
}

/// The same text, whose lines are to end only behind a comma, a colon or a semicolon.
pub fn together(text: &str) -> String {
    let mut last = ' ';
    let mut held = String::new();
    for letter in text.chars() {
        match letter {
            ' ' if !",:;".contains(last) => held += FIXED,
            other => held.push(other),
        }
        last = letter;
    }
    held
}
