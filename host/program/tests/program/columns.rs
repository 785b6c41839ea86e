//! Columns have room for the largest numbers.

use crate::run;

/// A ring of 4,096 bytes full of answers at the last clock.
#[test]
fn trace() {
    let out = run::printed(&format!("trace {}", "01FFFFFFFF0003".repeat(585)));
    let lines: Vec<&str> = out.lines().collect();
    assert_eq!(lines[0], "  at       clock          ms  record");
    assert_eq!(
        lines[1],
        "   0  4294967295 429496729.5  answer  Ident 0 (Init), answer 3: wrong check"
    );
    assert_eq!(lines[585], lines[1].replace("   0", "4088"));
}

/// The numbers end where that of all calls ends.
#[test]
fn soak() {
    let out = run::printed("soak --calls 20000");
    let counts = out.lines().map(|line| line.trim_start().split("  ").next().unwrap_or(line));
    let ends = out.lines().map(|line| line.len() - line.trim_start().len());
    let ends: Vec<usize> = ends.zip(counts).map(|(space, count)| space + count.len()).collect();
    assert!(ends.iter().all(|end| *end == "20,000".len()), "{out}");
}
