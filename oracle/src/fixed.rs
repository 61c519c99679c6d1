//! The fixed lists, as the gate runs them. For the program `replay` a file: for each case a frame with the input of
//! `rows`, then one with the answer. For `batch` two: the frames that it reads, and those that it must write.
use std::{collections::HashSet, io::Cursor};

use crate::{
    answer::{LIMIT, answer, outcome},
    beside,
    case::Case,
    corners::{self, NESTINGS},
    drawn::{Cases, exact},
    editions, frame, guards,
    list::script,
    questions,
    rooms::Judge,
    rows::Outcome,
    tight,
};

/// The cases of the list, in order.
pub fn cases() -> Vec<Vec<u8>> {
    let mut cases: Vec<_> = [corners::scripts(), corners::at_door(), nested(), corners::at_limit()]
        .concat()
        .iter()
        .map(Case::encode)
        .collect();
    cases.extend(corners::broken().into_iter().step_by(5));
    cases.extend(corners::at_sizes());
    cases.extend(large().take(1));
    cases.extend(telling());

    let mut seen = HashSet::new();
    cases.retain(|case| seen.insert(case.clone()));
    cases
}

/// Of each way to nest the first that is too deep, left unclosed; of the short ones the deepest accepted.
fn nested() -> Vec<Case> {
    let is_too_deep =
        |case: &Case| matches!(outcome(case, LIMIT), Outcome::Refused(refusal) if refusal.code == 11);
    let mut cases = Vec::new();
    for form in NESTINGS {
        let unclosed = |times: usize| script(&(form.open.repeat(times) + form.core));
        let times = (1..).find(|times| is_too_deep(&unclosed(*times))).expect("every form nests");
        let deepest = script(&form.script(times - 1));
        cases.push(unclosed(times));
        if deepest.tokens.len() < 120 {
            cases.push(deepest);
        }
    }
    cases
}

/// Small random cases that show something new: a refusal by its code, required kind and kind found.
fn telling() -> Vec<Vec<u8>> {
    let cases = Cases::new(0);
    let mut seen = HashSet::new();
    let mut told = Vec::new();
    for input in (2_000..8_000).map(|index| cases.get(index)) {
        let Some(case) = Case::decode(&input) else { continue };
        let Outcome::Refused(refusal) = outcome(&case, LIMIT) else { continue };
        let is_late = refusal.code >= 8 && refusal.at >= 4 && input.len() < 250;
        if is_late && seen.insert((refusal.code, refusal.expected, case.tokens[refusal.at as usize].kind)) {
            told.push(input);
        }
    }
    told
}

/// Accepted scripts of as many tokens as `rows` takes.
fn large() -> impl Iterator<Item = Vec<u8>> {
    let is_accepted = |case: &Case| matches!(outcome(case, LIMIT), Outcome::Accepted(_));
    (0..).map(exact).filter(is_accepted).map(|case| case.encode())
}

pub fn file() -> Vec<u8> {
    let mut bytes = Vec::new();
    for case in cases() {
        frame::write(&mut bytes, &case).expect("memory");
        frame::write(&mut bytes, &answer(&case)).expect("memory");
    }
    bytes
}

/// What `batch` reads, and what it must write: some inputs of `rows`, whole and broken, the corners of rooms of any size, and
/// some of built-in names, of editions, of guards and of refused tokens.
pub fn batch_files() -> (Vec<u8>, Vec<u8>) {
    let whole = script("a;").encode();
    let plain = [whole.clone(), Vec::new(), [&whole[..], &[0]].concat(), whole[..8].to_vec()];
    let (mut read, mut written, mut judge) = (Vec::new(), Vec::new(), Judge::default());
    let chosen =
        [tight::corners(), beside::chosen(), editions::chosen(), guards::chosen(), questions::chosen()]
            .concat();
    for case in plain.into_iter().chain(chosen) {
        frame::write(&mut read, &case).expect("memory");
        frame::write(&mut written, &judge.answer(&case)).expect("memory");
    }
    (read, written)
}

/// The frames of a file.
pub fn frames(file: &[u8]) -> Vec<Vec<u8>> {
    let mut rest = Cursor::new(file);
    std::iter::from_fn(|| frame::read(&mut rest).expect("whole frames")).collect()
}
