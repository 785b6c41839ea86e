//! The pages for people: what stands there is what the program prints and draws.

use crate::folder::Folder;
use std::fs;
use std::path::Path;

fn page(name: &str) -> String {
    let file = Path::new(env!("CARGO_MANIFEST_DIR")).join("../../docs").join(name);
    fs::read_to_string(file).unwrap_or_else(|error| panic!("{name}: {error}"))
}

#[test]
fn at_the_bench() {
    examples_are_real("BENCH.md", 20);
}

#[test]
fn teaching() {
    examples_are_real("TEACHING.md", 20);
}

/// README's picture is the demo's.
#[test]
fn the_picture() {
    let folder = Folder::new("the_picture");
    assert_eq!(folder.line("demo").status, 0);
    assert!(folder.text("demo.svg") == page("demo.svg"), "docs/demo.svg is another picture");
}

/// A line `$ cat FILE` is followed by the file, which is written here. A line `$ yarrowbell ..` is
/// followed by what the program prints, or by its exit status and what it says on standard error.
fn examples_are_real(name: &str, least: usize) {
    let folder = Folder::new(name);
    let text = page(name);
    let mut runs = 0;
    for (head, lines) in examples(&text) {
        match head.split_once(' ') {
            Some(("cat", name)) => folder.put(name, lines.join("\n") + "\n"),
            Some(("yarrowbell", rest)) => {
                printed(&folder, rest, &lines);
                runs += 1;
            }
            _ => panic!("{head}"),
        }
    }
    assert!(runs >= least, "{runs} examples were found");
}

/// What stands behind each `$` in an indented block, and the lines that follow it there, up to the
/// next text.
fn examples(text: &str) -> Vec<(&str, Vec<&str>)> {
    let mut examples: Vec<(&str, Vec<&str>)> = Vec::new();
    let mut within = false;
    for line in text.lines() {
        match line.strip_prefix("    ") {
            Some(line) => match (line.trim_start().strip_prefix("$ "), examples.last_mut()) {
                (Some(head), _) => {
                    within = true;
                    examples.push((head, Vec::new()));
                }
                (None, Some((_, lines))) if within => lines.push(line.trim_start()),
                _ => (),
            },
            None => within &= line.is_empty(),
        }
    }
    examples
}

/// The program prints these lines one after the other, empty ones left out on both sides. Where `...`
/// stands it prints others, and behind the last line it may.
fn printed(folder: &Folder, words: &str, lines: &[&str]) {
    let (ran, refused) = (folder.line(words), lines.first() == Some(&"(exit status 2)"));
    let (status, told, silent) =
        if refused { (2, &ran.err, &ran.out) } else { (0, &ran.out, &ran.err) };
    assert_eq!((ran.status, silent.as_str()), (status, ""), "{words}");
    let same = |one: &str, other: &str| one.split_whitespace().eq(other.split_whitespace());
    let mut rest = told.lines().filter(|line| !line.is_empty());
    let mut others = false;
    for line in lines.iter().skip(usize::from(refused)) {
        if *line == "..." {
            others = true;
            continue;
        }
        let found = if others {
            rest.any(|other| same(line, other))
        } else {
            rest.next().is_some_and(|other| same(line, other))
        };
        assert!(found, "{words}: {line:?} does not stand so in\n{told}");
        others = false;
    }
}
