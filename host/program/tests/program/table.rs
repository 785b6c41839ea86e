//! Lines of the program for other programs, as rows of cells under one head.

use serde_json::{Map, Value};

#[derive(Debug, PartialEq, Eq)]
pub struct Table {
    pub head: Vec<String>,
    pub rows: Vec<Vec<String>>,
}

impl Table {
    /// Of a CSV whose lines are all as long as its head.
    pub fn of_csv(text: &str) -> Table {
        let mut reader = csv::Reader::from_reader(text.as_bytes());
        let cells = |line: &csv::StringRecord| line.iter().map(str::to_owned).collect();
        let head = cells(reader.headers().expect("a head"));
        let rows = reader.records().map(|line| cells(&line.expect("a whole line"))).collect();
        Table { head, rows }
    }

    /// Of lines of JSON with these keys. A null is an empty cell.
    pub fn of_json(text: &str, head: &[String]) -> Table {
        let row = |line| {
            let object = object(line);
            assert_eq!(object.len(), head.len(), "{line}");
            head.iter().map(|key| cell(&object[key])).collect()
        };
        Table { head: head.to_vec(), rows: text.lines().map(row).collect() }
    }

    /// The cells of a row under these names, which stand between spaces.
    pub fn cells(&self, row: usize, names: &str) -> Vec<&str> {
        let place = |name| self.head.iter().position(|head| head == name).expect("a column");
        names.split(' ').map(|name| self.rows[row][place(name)].as_str()).collect()
    }
}

/// The object in a line of JSON.
pub fn object(line: &str) -> Map<String, Value> {
    serde_json::from_str(line).unwrap_or_else(|error| panic!("{error}: {line}"))
}

fn cell(value: &Value) -> String {
    match value {
        Value::Null => String::new(),
        Value::String(text) => text.clone(),
        other => other.to_string(),
    }
}
