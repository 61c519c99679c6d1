//! What comes of an input: rows, made from the original's tree as document 01 says, or a refusal.
use std::collections::HashSet;

use kaori::{compiler::INTERNER, util::string_interner::Symbol};

use crate::{
    builtins::Builtins,
    case::Case,
    kinds::{IDENTIFIER, STRING},
};

pub const ABSENT: u32 = u32::MAX;
/// The numbers of a node row, and which of them is its parent's row.
pub const NODE_WIDTH: usize = 10;
pub const PARENT: usize = 9;
/// `expected` where no certain kind was required.
pub const NO_KIND: u32 = 255;

#[derive(Clone, PartialEq, Eq, Debug)]
pub enum Outcome {
    Accepted(Rows),
    Refused(Refusal),
}

#[derive(Clone, PartialEq, Eq, Debug, Default)]
pub struct Rows {
    pub nodes: Vec<[u32; NODE_WIDTH]>,
    pub links: Vec<[u32; 3]>,
    pub symbols: Vec<[u32; 2]>,
}

#[derive(Clone, PartialEq, Eq, Debug)]
pub struct Refusal {
    pub code: u32,
    pub at: u32,
    pub start: u32,
    pub end: u32,
    pub expected: u32,
    pub message: String,
}

/// A tree of an accepted script: the original's, or that of edition 2, whose `return` may have no child.
pub trait Tree {
    /// Its rows. The interner has to be as the parser left it.
    fn rows(&self, names: &Builtins, case: &Case) -> Rows;
}

mod first {
    use kaori::syntax::ast::{Ast, Node, NodeId, Spanned};

    include!("tree.rs");
}

mod second {
    use kaori::syntax::second_ast::{Ast, Node, NodeId, Spanned};

    include!("tree.rs");
}

/// The first place of each symbol: in an accepted script every identifier and string is interned, in order. The built-in
/// names stand before them, with their places in their own text.
fn symbols(names: &Builtins, case: &Case) -> Vec<[u32; 2]> {
    let built_in = names.words().expect("right names");
    let mut seen: HashSet<_> = built_in.iter().map(|word| word.as_bytes()).collect();
    let mut places = names.places().to_vec();
    for token in &case.tokens {
        let [start, end] = match token.kind {
            IDENTIFIER => [token.start, token.end],
            STRING => [token.start + 1, token.end - 1],
            _ => continue,
        };
        if seen.insert(&case.text[start as usize..end as usize]) {
            places.push([start, end]);
        }
    }

    let mut interner = INTERNER.lock().unwrap();
    for (number, [start, end]) in places.iter().enumerate() {
        let text = if number < built_in.len() { &names.text } else { &case.text };
        let word = &text[*start as usize..*end as usize];
        assert_eq!(interner.resolve(Symbol(number as u32)).as_bytes(), word, "symbol {number}");
    }
    let next = interner.get_or_intern("§"); // no script has it: its number is the count
    assert_eq!(next.0 as usize, places.len(), "the number of symbols");
    places
}
