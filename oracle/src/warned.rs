//! Which places of a script deserve a warning, from the words of the four rules, over its tokens and what they group to. The
//! definitions of crate `lint` go over rows; nothing of them stands here.
use kaori::syntax::token::Token;

use crate::{case::Case, grouping::Grouping, kinds::TOKENS, lines::place};

pub const REACHING_NOT: &str = "reaching-not";
pub const CUT_OFF: &str = "cut-off";
pub const GOING_ON: &str = "going-on";
pub const LONG_STRING: &str = "long-string";

pub const RULES: [&str; 4] = [REACHING_NOT, CUT_OFF, GOING_ON, LONG_STRING];

/// A rule, and the line and the column of the token that is warned of.
#[derive(Clone, PartialEq, Eq, PartialOrd, Ord, Debug)]
pub struct Warning {
    pub rule: String,
    pub line: usize,
    pub column: usize,
}

fn kind(case: &Case, at: usize) -> Token {
    TOKENS[case.tokens[at].kind as usize]
}

/// The `and`s and `or`s that a `not` took by reaching on, in order. `(`, `{` and `#{` that open after it shield what they hold, and so
/// does an `if` its condition.
pub fn reached(case: &Case, grouping: &Grouping, (not, end): (usize, usize)) -> Vec<usize> {
    let (mut open, mut found) = (0, Vec::new());
    for at in not + 1..end {
        match kind(case, at) {
            Token::LeftParen | Token::LeftBrace => open += 1,
            Token::RightParen | Token::RightBrace => open -= 1,
            Token::And | Token::Or if open == 0 => {
                let shields = |(first, brace): &(usize, usize)| not < *first && *first < at && at < *brace;
                if !grouping.conditions.iter().any(shields) {
                    found.push(at);
                }
            }
            _ => {}
        }
    }
    found
}

fn has_line_end(text: &[u8]) -> bool {
    text.contains(&b'\n') || text.contains(&b'\r')
}

/// Whether a line ends between a token and the one before it.
fn is_on_later_line(case: &Case, at: usize) -> bool {
    at > 0 && has_line_end(&case.text[case.tokens[at - 1].end as usize..case.tokens[at].start as usize])
}

/// Whether a statement could start at a token: the innermost bracket that is open there is a block's, or none is open.
fn is_in_block(case: &Case, at: usize) -> bool {
    let mut open = Vec::new();
    for before in 0..at {
        match kind(case, before) {
            Token::LeftParen | Token::LeftBrace => open.push(before),
            Token::RightParen | Token::RightBrace => drop(open.pop()),
            _ => {}
        }
    }
    let is_map = |brace: usize| brace > 0 && kind(case, brace - 1) == Token::Hash;
    open.last().is_none_or(|&last| kind(case, last) == Token::LeftBrace && !is_map(last))
}

/// The warnings of an accepted script, in order.
pub fn warnings(case: &Case, grouping: &Grouping) -> Vec<Warning> {
    let text = str::from_utf8(&case.text).expect("ASCII");
    let mut all = Vec::new();
    let mut warn = |rule: &str, at: usize| {
        let (line, column) = place(text, case.tokens[at].start as usize);
        all.push(Warning { rule: rule.into(), line, column });
    };
    for not in &grouping.nots {
        if !reached(case, grouping, *not).is_empty() {
            warn(REACHING_NOT, not.0);
        }
    }
    for (_, end) in &grouping.statements {
        let next = kind(case, *end);
        let goes_on = matches!(next, Token::Plus | Token::Minus | Token::Caret | Token::LeftParen);
        if kind(case, end - 1) == Token::RightBrace && goes_on {
            warn(CUT_OFF, *end);
        }
    }
    for at in grouping.calls.iter().chain(&grouping.sums) {
        if is_on_later_line(case, *at) && is_in_block(case, *at) {
            warn(GOING_ON, *at);
        }
    }
    for (at, token) in case.tokens.iter().enumerate() {
        let lexeme = &case.text[token.start as usize..token.end as usize];
        if kind(case, at) == Token::StringLiteral && has_line_end(lexeme) {
            warn(LONG_STRING, at);
        }
    }
    all.sort();
    all
}
