//! `soak`

use crate::run;

#[test]
fn all_agree() {
    let ran = run::line("soak --calls 5000 --seed 3");
    assert_eq!((ran.status, ran.err.as_str()), (0, ""));
    assert!(ran.out.trim_end().ends_with("calls, all agree"), "{}", ran.out);
}

/// Histories, pairs and packets are run at each seed.
#[test]
fn every_trial_is_run() {
    let out = run::printed("soak --calls 1");
    for what in [
        "byte answered 0",
        "calls on pairs",
        "RehaStim2: calls on packets",
        "RehaMove3: calls on packets",
    ] {
        let line = out.lines().find(|line| line.ends_with(&format!("  {what}")));
        let line = line.unwrap_or_else(|| panic!("{what}: {out}"));
        assert!(!line.trim_start().starts_with('0'), "{line}");
    }
}
