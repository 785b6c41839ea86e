use super::{BadLine, HEADER};

/// What is said of the line behind the header.
fn told(line: &str) -> String {
    BadLine::of_record(line.as_bytes()).expect("the line is bad").to_string()
}

fn of_header(line: &str) -> String {
    BadLine::of_header(line.as_bytes()).expect("the header is bad").to_string()
}

#[test]
fn good_lines() {
    assert_eq!(BadLine::of_header(HEADER.as_bytes()), None);
    let lines = [
        "0,answer,0,,,0\n",
        "7,answer,3,,,3\n",
        "4294967295,answer,1,,,10\n",
        "100,pulse,1,10,1,\n",
        "100,pulse,8,500,127,\n",
        "12,trip,,,,1\n",
        "12,trip,,,,2\n",
    ];
    for line in lines {
        assert_eq!(BadLine::of_record(line.as_bytes()), None, "{line}");
    }
}

#[test]
fn headers() {
    let right = "clock,kind,channel,width_us,current_ma,code";
    assert_eq!(of_header("\u{FEFF}clock,kind\n"), "a byte order mark stands before the header");
    assert_eq!(of_header(right), "the line is not ended by a line feed");
    assert!(of_header(&format!("{right}\r\n")).starts_with("a carriage return stands"));
    let other = format!("the header is not {right}");
    assert_eq!(of_header("Clock,kind,channel,width_us,current_ma,code\n"), other);
    assert_eq!(of_header("clock;kind;channel;width_us;current_ma;code\n"), other);
    assert_eq!(of_header("\n"), other);
    let empty = BadLine::known(b"", 1).to_string();
    assert_eq!(empty, format!("the sheet is empty, and its first line is {right}"));
}

#[test]
fn ends() {
    assert_eq!(told("100,pulse,1,200,40,"), "the line is not ended by a line feed");
    assert_eq!(
        told("100,pulse,1,200,40,\r\n"),
        "a carriage return stands before the line feed, and a line ends with a line feed alone"
    );
}

#[test]
fn shapes() {
    let six = "and a record has six, with commas between them";
    assert_eq!(told("\n"), format!("the line has 1 field, {six}"));
    assert_eq!(told("100;pulse;1;200;40;\n"), format!("the line has 1 field, {six}"));
    assert_eq!(told("100,pulse,1,200,40\n"), format!("the line has 5 fields, {six}"));
    assert_eq!(told("100,pulse,1,200,40,,\n"), format!("the line has 7 fields, {six}"));
    let quoted = "a quotation mark stands in the line, and a sheet has none";
    assert_eq!(told("100,\"pulse\",1,200,40,\n"), quoted);
    let kinds = "and a record is of kind answer, pulse or trip";
    assert_eq!(told("100,Pulse,1,200,40,\n"), format!("kind is \"Pulse\", {kinds}"));
    assert_eq!(told("100,,1,200,40,\n"), format!("kind is \"\", {kinds}"));
}

#[test]
fn numbers() {
    let said = [
        (",pulse,1,200,40,\n", "clock is empty, and a pulse has a number there"),
        ("100,answer,1,,,\n", "code is empty, and an answer has a number there"),
        ("100,pulse,1,200,40,0\n", "code is 0, and a pulse has nothing there"),
        ("100,trip,,,x y,1\n", "current_ma is \"x y\", and a trip has nothing there"),
        ("100,pulse, 1,200,40,\n", "channel is \" 1\", and a number is digits alone"),
        ("+100,pulse,1,200,40,\n", "clock is \"+100\", and a number is digits alone"),
        ("100,pulse,1,2e2,40,\n", "width_us is \"2e2\", and a number is digits alone"),
        ("0100,pulse,1,200,40,\n", "clock is 0100, and a number has no leading zero"),
        ("100,pulse,1,200,00,\n", "current_ma is 00, and a number has no leading zero"),
        ("4294967296,trip,,,,1\n", "clock is 4294967296, and a trip has 0 to 4294967295"),
        ("100,pulse,9,200,40,\n", "channel is 9, and a pulse has 1 to 8"),
        ("100,pulse,1,9,40,\n", "width_us is 9, and a pulse has 10 to 500"),
        ("100,pulse,1,200,128,\n", "current_ma is 128, and a pulse has 1 to 127"),
        ("100,answer,4,,,0\n", "channel is 4, and an answer has 0 to 3"),
        ("100,answer,0,,,1\n", "code is 1, and an answer has 0 or 3 to 10"),
        ("100,trip,,,,3\n", "code is 3, and a trip has 1 to 2"),
    ];
    for (line, words) in said {
        assert_eq!(told(line), words, "{line}");
    }
}

/// What is no text is shown as such, and of much the start.
#[test]
fn shown() {
    let line = BadLine::of_record(b"1,\xFFpulse\0,1,200,40,\n").expect("no such kind").to_string();
    assert!(line.starts_with("kind is \"\\xffpulse\\x00\", "), "{line}");
    let digits = "1".repeat(1_000_000);
    let words = format!("clock is {}.., and a trip has 0 to 4294967295", &digits[..40]);
    assert_eq!(told(&format!("{digits},trip,,,,1\n")), words);
}
