//! Stands in for compiler.rs: the interner behind its lock, and the openings for the derived parser.
use std::{
    cell::{Cell, RefCell},
    sync::{LazyLock, Mutex},
};

use crate::util::string_interner::{StringInterner, Symbol};

pub static INTERNER: LazyLock<Mutex<StringInterner>> = LazyLock::new(Mutex::default);

/// Empties the interner, also after a panic under its lock, and gives it these names.
pub fn fresh_interner(names: &[&str]) {
    INTERNER.clear_poison();
    let mut interner = INTERNER.lock().unwrap();
    *interner = StringInterner::default();
    for name in names {
        interner.get_or_intern(name);
    }
}

/// The messages of the refusals that the original does not have.
pub const NESTED: &str = "nested too deep";
pub const FOR: &str = "for is not supported";

/// What the depth counts, in document 02's order (L2).
#[derive(Clone, Copy, PartialEq, Eq, Debug)]
pub enum Sort {
    Expression,
    Block,
    If,
    Sign,
}

/// An open construct: its sort, and its first token.
#[derive(Clone, Copy, PartialEq, Eq, Debug)]
pub struct Opening {
    pub sort: Sort,
    pub at: usize,
}

#[derive(Default)]
pub struct Compiler {
    pub current_file: Symbol,
    limit: u32,
    open: RefCell<Vec<Opening>>,
    deepest: Cell<u32>,
}

impl Compiler {
    pub fn with_limit(limit: u32) -> Self {
        Self { limit, ..Self::default() }
    }

    /// Takes an opening, if the limit allows one more.
    pub fn open(&self, sort: Sort, at: usize) -> bool {
        let mut open = self.open.borrow_mut();
        if open.len() as u32 == self.limit {
            return false;
        }
        open.push(Opening { sort, at });
        self.deepest.set(self.deepest.get().max(open.len() as u32));
        true
    }

    /// Takes off the innermost opening: it is whole.
    pub fn close(&self) {
        self.open.borrow_mut().pop().expect("an opening");
    }

    /// The openings that are not whole, outermost first.
    pub fn chain(&self) -> Vec<Opening> {
        self.open.borrow().clone()
    }

    /// The most openings that were taken at once.
    pub fn deepest(&self) -> u32 {
        self.deepest.get()
    }
}
