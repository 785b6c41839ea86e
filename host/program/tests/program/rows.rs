//! A printed story as rows, each text as long as it was before it was wrapped.

/// A command by itself, or what each unit did and why, beside each other.
#[derive(Debug, PartialEq, Eq)]
pub struct Row {
    pub clock: u32,
    pub cells: Vec<Vec<String>>,
    pub differ: bool,
}

/// What stands left, how wide a column is of one unit and of two, and what stands between them.
const LEFT: usize = 24;
const WIDTHS: [usize; 2] = [76, 42];
const BETWEEN: usize = 2;

/// The rows of a story of one unit or of two, up to the empty line. Nothing in it is wider than its
/// column.
pub fn rows(story: &str, units: usize) -> Vec<Row> {
    let width = WIDTHS[units - 1];
    let begin = |unit: usize| LEFT + unit * (width + BETWEEN);
    let mut rows: Vec<Row> = Vec::new();
    let mut clock = 0;
    for line in story.lines().skip(1).take_while(|line| !line.is_empty()) {
        clock = time(&cut(line, 0, LEFT)).unwrap_or(clock);
        let all = cut(line, LEFT, usize::MAX);
        let of_command = rows.last().is_some_and(Row::is_command) && indent(&all) == 4;
        if of_command || all.starts_with('>') {
            assert!(all.chars().count() <= begin(units) - BETWEEN - LEFT, "{line}");
            if !of_command {
                rows.push(Row { clock, cells: vec![Vec::new()], differ: false });
            }
            take(&all, &mut rows.last_mut().expect("a command").cells[0]);
            continue;
        }
        let between = |unit: usize| cut(line, begin(unit) - BETWEEN, BETWEEN);
        assert!((1..=units).all(|unit| between(unit).is_empty()), "{line}");
        let cells: Vec<String> = (0..units).map(|unit| cut(line, begin(unit), width)).collect();
        let mark = cut(line, begin(units), usize::MAX);
        let begins = cells.iter().any(|cell| !cell.is_empty() && indent(cell) == 0);
        assert!(mark.is_empty() || mark == "differ" && begins, "{line}");
        if begins {
            rows.push(Row { clock, cells: vec![Vec::new(); units], differ: !mark.is_empty() });
        }
        let row = rows.last_mut().expect("the first line of a row is not indented");
        row.cells.iter_mut().zip(&cells).for_each(|(texts, cell)| take(cell, texts));
    }
    rows
}

impl Row {
    fn is_command(&self) -> bool {
        self.cells[0].first().is_some_and(|text| text.starts_with('>'))
    }
}

/// So many places of a line, without the spaces at their end.
fn cut(line: &str, from: usize, size: usize) -> String {
    line.chars().skip(from).take(size).collect::<String>().trim_end().to_owned()
}

fn indent(text: &str) -> usize {
    text.len() - text.trim_start().len()
}

/// A line of a cell: a text begins with it, or goes on.
fn take(line: &str, texts: &mut Vec<String>) {
    let words = line.split_whitespace().collect::<Vec<&str>>().join(" ");
    match (indent(line), texts.last_mut()) {
        _ if line.is_empty() => (),
        (0, None) => texts.push(words),
        (2, Some(_)) => texts.push(format!("  {words}")),
        (4, Some(last)) => *last += &format!(" {words}"),
        _ => panic!("{line:?} behind {texts:?}"),
    }
}

/// The clock of a line that has one, with as many milliseconds.
fn time(text: &str) -> Option<u32> {
    let [clock, ms] = text.split_whitespace().collect::<Vec<&str>>()[..] else {
        assert_eq!(text, "");
        return None;
    };
    let clock: u32 = clock.parse().expect("a clock");
    assert_eq!(ms, format!("{:.1}", f64::from(clock) / 10.0));
    Some(clock)
}
