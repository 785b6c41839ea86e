//! `bench`: names of measurements. The gate builds and runs it.

use crate::run;

/// A name that is none is refused at once, with all that there are.
#[test]
fn no_such_measurement() {
    for words in ["NOSUCH", "--test NOSUCH", "tick NOSUCH", "--sample-size 20 NOSUCH --list"] {
        let ran = run::line(&format!("bench {words}"));
        assert_eq!((ran.status, ran.out.as_str()), (2, ""), "{words}");
        let mut lines = ran.err.lines();
        let message = "[NAME]...: no measurement has \"NOSUCH\" in its name; \
                       a name is GROUP/SIDE/CALL, and there are";
        assert_eq!(lines.next(), Some(message), "{words}");
        let groups: Vec<&str> = lines
            .filter_map(|line| line.strip_prefix("  ").filter(|line| !line.starts_with(' ')))
            .filter_map(|line| line.split(" (").next())
            .collect();
        let all = [
            "tick",
            "byte",
            "box readout",
            "frame read",
            "frame write",
            "packet read, RehaStim2",
            "packet write, RehaStim2",
            "packet read, RehaMove3",
            "packet write, RehaMove3",
            "ring split",
            "ring of 64 records",
            "ring push",
            "ring readout",
            "sheet write",
            "sheet read",
        ];
        assert_eq!(groups.len(), all.len(), "{words}");
        assert!(all.iter().all(|group| groups.contains(group)), "{groups:?}");
    }
}
