//! Checks 1 to 7 of document 01. Check 4 is of the scratch room alone: document 02, L6. After it come those of built-in
//! names, 18 and another 4: L10. Before it comes that of the edition, 21: L14, '21, after 3, for any other number'. The last is
//! that of guards, 17: L9, '17, after 7 and before reading, at the first token outside the profile'.
use crate::{
    builtins::Builtins,
    case::{Case, Token},
    kinds::{EOF, OUTSIDE, fits},
    rooms::{Rooms, SCRATCH, SYMBOLS, WIDTHS},
    rows::{NO_KIND, Refusal},
    terms::{Call, FIRST, SECOND, Terms},
};

/// With scratch enough, as `rows` lends it, and no built-in names.
pub fn refusal(case: &Case, call: impl Into<Call>) -> Option<Refusal> {
    let scratch = WIDTHS[SCRATCH] * case.tokens.len() as u32;
    refusal_with(&Builtins::default(), case, call, [0, 0, 0, scratch])
}

/// With these built-in names and in these rooms.
pub fn refusal_with(names: &Builtins, case: &Case, call: impl Into<Call>, rooms: Rooms) -> Option<Refusal> {
    let Call { is_guard, terms: Terms { edition, limit } } = call.into();
    let rows = |room: usize| (rooms[room] / WIDTHS[room]) as usize;
    if !(1..=4_096).contains(&case.tokens.len()) {
        return Some(placeless(1));
    }
    if case.text.len() > 65_536 {
        return Some(placeless(2));
    }
    if !(1..=64).contains(&limit) {
        return Some(placeless(3));
    }
    if ![FIRST, SECOND].contains(&edition) {
        return Some(placeless(21));
    }
    if rows(SCRATCH) < case.tokens.len() {
        return Some(placeless(4));
    }
    if names.words().is_none() {
        return Some(placeless(18));
    }
    if rows(SYMBOLS) < names.places().len() {
        return Some(placeless(4));
    }
    if let Some(offset) = case.text.iter().position(|byte| *byte > 127) {
        let offset = offset as u32;
        return Some(Refusal { start: offset, end: offset + 1, ..placeless(5) });
    }
    if let Some(at) = (0..case.tokens.len()).find(|at| is_bad(case, *at)) {
        return Some(at_token(case, 6, at));
    }
    let last = case.tokens.len() - 1;
    let misplaced = |(at, token): (usize, &Token)| (token.kind == EOF) != (at == last);
    if let Some(at) = case.tokens.iter().enumerate().position(misplaced) {
        return Some(at_token(case, 7, at));
    }
    let is_outside = |token: &Token| is_guard && OUTSIDE.contains(&token.kind);
    let at = case.tokens.iter().position(is_outside)?;
    Some(at_token(case, 17, at))
}

fn is_bad(case: &Case, at: usize) -> bool {
    let token = case.tokens[at];
    let previous_end = if at == 0 { 0 } else { case.tokens[at - 1].end };
    token.kind > EOF
        || token.start < previous_end
        || case.lexeme(token).is_none_or(|lexeme| !fits(token.kind, lexeme))
}

fn placeless(code: u32) -> Refusal {
    Refusal { code, at: 0, start: 0, end: 0, expected: NO_KIND, message: String::new() }
}

fn at_token(case: &Case, code: u32, at: usize) -> Refusal {
    let Token { start, end, .. } = case.tokens[at];
    Refusal { at: at as u32, start, end, ..placeless(code) }
}
