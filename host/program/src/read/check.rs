//! The check of a whole frame, worked out.

use crate::frame::given::{sum_and_check, Value};

pub struct Check {
    /// The terms of the sum, those of each listed channel together.
    terms: Vec<Vec<u16>>,
    pub sum: u32,
    pub modulus: u32,
    /// What the check should be, and what the frame says.
    pub should_be: u32,
    pub says: u32,
}

impl Check {
    /// The sum of the variables, beside what the frame says.
    pub fn of(values: &[Value], modulus: u32) -> Check {
        let variables: Vec<&Value> =
            values.iter().filter(|value| value.field.is_variable()).collect();
        let groups = variables.chunk_by(|one, other| one.entry == other.entry);
        let terms = groups.map(|group| group.iter().map(|value| value.number).collect()).collect();
        let (sum, says) = sum_and_check(values);
        Check { terms, sum, modulus, should_be: sum % modulus, says }
    }

    pub fn told(&self) -> String {
        let Check { terms, sum, modulus, should_be, says } = self;
        let sums: Vec<String> = terms
            .iter()
            .map(|group| group.iter().map(u16::to_string).collect::<Vec<String>>().join(" + "))
            .collect();
        let work = match &sums[..] {
            [] => "of no variables is 0".to_owned(),
            [only] => format!("{only} = {sum}"),
            more => format!("({}) = {sum}", more.join(") + (")),
        };
        let verdict = if says == should_be { "right" } else { "wrong" };
        format!("check {work}, modulo {modulus} = {should_be}; the frame says {says}: {verdict}")
    }
}
