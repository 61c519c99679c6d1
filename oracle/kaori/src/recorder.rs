//! The rows that a reading asks for: `syntax::recorded` and its tree tell of each, in the order of reading.
use std::cell::RefCell;

use crate::util::string_interner::Symbol;

#[derive(Clone, Copy, PartialEq, Eq, Debug)]
pub enum Row {
    Node,
    Link,
    Symbol,
}

/// A row, and the token that it is met at.
#[derive(Clone, Copy, PartialEq, Eq, Debug)]
pub struct Asked {
    pub row: Row,
    pub at: usize,
}

#[derive(Default)]
struct Recorder {
    /// The token that the parser looks at.
    at: usize,
    /// How many symbols have been met.
    symbols: u32,
    asked: Vec<Asked>,
}

thread_local! {
    static RECORDER: RefCell<Recorder> = RefCell::default();
}

/// Begins a reading, with so many symbols whose rows stand already.
pub fn start(symbols: u32) {
    RECORDER.replace(Recorder { symbols, ..Recorder::default() });
}

/// The rows since then.
pub fn asked() -> Vec<Asked> {
    RECORDER.take().asked
}

/// The parser has come to a token.
pub fn came_to(at: usize) {
    RECORDER.with_borrow_mut(|recorder| recorder.at = at);
}

/// The last token was read as a name or a string: a new symbol takes a row, at that token.
pub fn named(symbol: Symbol) {
    RECORDER.with_borrow_mut(|recorder| {
        assert!(symbol.0 <= recorder.symbols, "symbols are numbered by first appearance");
        if symbol.0 == recorder.symbols {
            recorder.symbols += 1;
            recorder.asked.push(Asked { row: Row::Symbol, at: recorder.at - 1 });
        }
    });
}

/// A node was made: its links take rows, and then it takes its own, at the token that stands after it.
pub fn made(links: usize) {
    RECORDER.with_borrow_mut(|recorder| {
        let at = recorder.at;
        recorder.asked.extend((0..links).map(|_| Asked { row: Row::Link, at }));
        recorder.asked.push(Asked { row: Row::Node, at });
    });
}
