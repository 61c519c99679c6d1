//! What the program `rows` must print.
use std::fmt::{Display, Write};

use crate::{
    builtins::Builtins,
    case::Case,
    door, judge,
    rows::{Outcome, Refusal, Rows},
};

/// The depth limit of `rows`.
pub const LIMIT: u32 = 64;

pub fn answer(input: &[u8]) -> Vec<u8> {
    answer_with(input, LIMIT)
}

pub fn answer_with(input: &[u8], limit: u32) -> Vec<u8> {
    let text = match Case::decode(input) {
        Some(case) => printed(&outcome(&case, limit)),
        None => "bad input\n".to_string(),
    };
    text.into_bytes()
}

pub fn outcome(case: &Case, limit: u32) -> Outcome {
    match door::refusal(case, limit) {
        Some(refusal) => Outcome::Refused(refusal),
        None => judge::read(&Builtins::default(), case, limit).outcome,
    }
}

pub fn printed(outcome: &Outcome) -> String {
    match outcome {
        Outcome::Accepted(rows) => printed_rows(rows),
        Outcome::Refused(Refusal { code, at, start, end, expected, message }) => {
            format!("refused {code} {at} {start} {end} {expected}\n{message}\n")
        }
    }
}

fn printed_rows(rows: &Rows) -> String {
    let counts = [rows.nodes.len(), rows.links.len(), rows.symbols.len()];
    let mut text = String::new();
    line(&mut text, "ok", counts);
    for (number, row) in rows.nodes.iter().enumerate() {
        line(&mut text, number, row);
    }
    for (number, row) in rows.links.iter().enumerate() {
        line(&mut text, format_args!("link {number}"), row);
    }
    for (number, row) in rows.symbols.iter().enumerate() {
        line(&mut text, format_args!("sym {number}"), row);
    }
    text
}

fn line(text: &mut String, first: impl Display, numbers: impl IntoIterator<Item: Display>) {
    write!(text, "{first}").unwrap();
    for number in numbers {
        write!(text, " {number}").unwrap();
    }
    text.push('\n');
}
