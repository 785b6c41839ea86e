use yarrowbell::Answer;

#[test]
fn numbers_and_answers_name_each_other() {
    for number in 0..=255 {
        let named = Answer::ALL.into_iter().find(|answer| answer.number() == number);
        assert_eq!(Answer::from_number(number), named);
        // In a wider number every bit counts.
        assert_eq!(Answer::from_number(u16::from(number)), named);
        assert_eq!(Answer::from_number(u32::from(number) + 256), None);
    }
}

/// Document 01: a ring's record has "each of 0, 3 to 10 given to a command", and the rows from 11 on
/// leave all.
#[test]
fn which_decide_and_which_refuse() {
    for answer in Answer::ALL {
        let number = answer.number();
        assert_eq!(answer.decides(), matches!(number, 0 | 3..=10), "{number}");
        assert_eq!(answer.refuses(), matches!(number, 11..=17), "{number}");
    }
}

/// The table of document 01, "Numbers the box answers".
#[test]
fn answers_are_told_in_words() {
    let words = [
        "command carried out, or tick taken",
        "byte taken, frame unfinished",
        "low byte, no frame open",
        "wrong check",
        "value not good",
        "timing rule broken",
        "Update, no list",
        "Single while a list runs",
        "Single during a hold",
        "over a limit",
        "Update or Single while tripped",
        "profile not good",
        "box record not good",
        "ring part outside the lent buffer, or its size not the box's capacity",
        "used ring bytes do not split into whole known records",
        "clock at its end",
        "output too short",
        "frame cut: a high byte before the frame's end",
    ];
    for (answer, words) in Answer::ALL.iter().zip(words) {
        assert_eq!(answer.to_string(), words);
    }
}
