use yarrowbell::{calls, Answer};

/// Any Ident and any answer: those that no command has too.
#[test]
fn every_reply() {
    for ident in 0..=255 {
        for answer in 0..=255 {
            let expected = independent::reply(ident, answer);
            assert_eq!(calls::reply(ident, answer), expected, "{ident} {answer}");
            assert_eq!(expected & 0b0011_1110, 0);
        }
        for answer in Answer::ALL {
            assert_eq!(yarrowbell::reply(ident, answer), calls::reply(ident, answer.number()));
        }
    }
}
