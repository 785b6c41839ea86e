//! `read --check`

use crate::run;

/// The output is the same, and the exit status tells.
#[test]
fn a_refused_frame_is_a_failure() {
    for (words, status) in [
        ("E2 21 48 78", 0),
        ("C0 FF", 0),
        ("E3 21 48 78", 1),
        ("E2 21 48", 1),
        ("21", 1),
        ("E3 20 09 78", 1),
        ("E2 21 C0", 1),
        ("C0 --channels 9", 1),
    ] {
        for json in ["", "--json"] {
            let asked = run::line(&format!("read {words} {json} --check"));
            let not_asked = run::line(&format!("read {words} {json}"));
            assert_eq!((asked.status, not_asked.status), (status, 0), "{words}");
            assert_eq!((asked.out, asked.err), (not_asked.out, String::new()), "{words}");
        }
    }
    let ran = run::line("read --check XY");
    assert_eq!((ran.status, ran.out.as_str()), (2, ""));
}
