//! Request L2: which kinds could stand at a place. A kind could if some script that is accepted begins with the kinds before the
//! place and then has that kind. The original says so, and nothing else: it looks one token ahead, so where it refuses that very
//! token no script goes on from there, and where it does not a script is made that it accepts.
use std::collections::HashMap;

use kaori::syntax::token;

use crate::{
    judge::{Said, ask, meaning},
    kinds::{EOF, IDENTIFIER, TOKENS},
    list::Word,
    rows::NO_KIND,
};

/// Sets of kinds, each a binary digit, by edition and the kinds before the place: nothing else of a script matters to them.
#[derive(Default)]
pub struct Could {
    known: HashMap<(u32, Vec<u8>), u64>,
}

impl Could {
    /// The kinds that could stand after these, which reading has to get past.
    pub fn stand(&mut self, edition: u32, before: &[u8]) -> u64 {
        let key = (edition, before.to_vec());
        *self.known.entry(key).or_insert_with(|| kinds_after(edition, before))
    }
}

fn kinds_after(edition: u32, before: &[u8]) -> u64 {
    let mut script = Plain::of(before);
    let mut set = (script.stops(edition) == Stop::Whole) as u64; // Eof: 'when the tokens before it form a whole script'
    set <<= EOF;
    let mut ends: Vec<Vec<u8>> = Vec::new();
    for kind in 0..EOF {
        script.push(kind);
        let gets_past = match script.stops(edition) {
            Stop::Whole => true,
            Stop::At { place, .. } => {
                assert!(place >= before.len(), "reading does not get past the kinds before: {before:?}");
                place > before.len()
            }
        };
        if gets_past && !ends.iter().any(|end| script.is_whole_with(edition, end)) {
            ends.push(script.end(edition));
        }
        set |= (gets_past as u64) << kind;
        script.cut(before.len());
    }
    set
}

/// Kinds with the plainest lexemes, as the original takes them.
pub struct Plain {
    text: String,
    tokens: Vec<(token::Token, token::Span)>,
}

/// Where reading ends.
#[derive(Clone, Copy, PartialEq, Eq, Debug)]
pub enum Stop {
    Whole,
    /// A token is refused. The kind that is required there, where one is.
    At {
        place: usize,
        required: Option<u8>,
    },
}

impl Plain {
    /// Kinds without Eof.
    pub fn of(kinds: &[u8]) -> Plain {
        let mut script = Plain { text: String::new(), tokens: Vec::new() };
        kinds.iter().for_each(|kind| script.push(*kind));
        script
    }

    pub fn push(&mut self, kind: u8) {
        self.text.push(' ');
        let start = self.text.len();
        self.text += &Word::plain(kind).lexeme;
        self.tokens.push((TOKENS[kind as usize], (start..self.text.len()).into()));
    }

    /// Leaves so many kinds.
    pub fn cut(&mut self, count: usize) {
        self.tokens.truncate(count);
        self.text.truncate(self.tokens.last().map_or(0, |(_, span)| span.end as usize));
    }

    /// Where reading ends, with an Eof after the kinds. At a `for` that would begin a statement the original panics: that is where
    /// it is refused.
    pub fn stops(&self, edition: u32) -> Stop {
        let end = self.text.len();
        let mut tokens = self.tokens.clone();
        tokens.push((TOKENS[EOF as usize], (end..end).into()));
        let error = match ask(edition, &self.text, tokens) {
            Said::Whole => return Stop::Whole,
            Said::For => {
                let is_for = |(token, _): &(token::Token, token::Span)| *token == token::Token::For;
                let place = self.tokens.iter().position(is_for).expect("a `for`");
                return Stop::At { place, required: None };
            }
            Said::Error(error) => error,
        };
        let place = self.tokens.partition_point(|(_, span)| span.start < error.span.start);
        let required = if place < self.tokens.len() { None } else { required(&error.message) };
        Stop::At { place, required }
    }

    /// Whether a script is accepted that has these kinds and then those.
    fn is_whole_with(&mut self, edition: u32, end: &[u8]) -> bool {
        let count = self.tokens.len();
        end.iter().for_each(|kind| self.push(*kind));
        let is_whole = self.stops(edition) == Stop::Whole;
        self.cut(count);
        is_whole
    }

    /// Kinds with which these are a script that is accepted. One by one: what the original requires at the end, or else a name, the
    /// first of them that it gets past.
    pub fn end(&mut self, edition: u32) -> Vec<u8> {
        let count = self.tokens.len();
        let mut end = Vec::new();
        while let Stop::At { place, required } = self.stops(edition) {
            let last = self.tokens.len();
            assert!(place == last && end.len() < 4 * count + 8, "no script begins with {:?}", self.kinds());
            let next = required.into_iter().chain([IDENTIFIER]).find(|kind| {
                self.push(*kind);
                let gets_past = !matches!(self.stops(edition), Stop::At { place, .. } if place == last);
                self.cut(last);
                gets_past
            });
            let next = next.unwrap_or_else(|| panic!("nothing can follow {:?}", self.kinds()));
            self.push(next);
            end.push(next);
        }
        self.cut(count);
        end
    }

    fn kinds(&self) -> Vec<token::Token> {
        self.tokens.iter().map(|(token, _)| *token).collect()
    }
}

fn required(message: &str) -> Option<u8> {
    let (_, kind) = meaning(message);
    (kind != NO_KIND).then_some(kind as u8)
}
