//! Request L10: built-in names as they are lent, a text and two numbers a name, and what is wrong with them. Written from
//! document 02.
use std::collections::HashSet;

use crate::kinds::{IDENTIFIER, fits};

#[derive(Clone, PartialEq, Eq, Debug, Default)]
pub struct Builtins {
    pub text: Vec<u8>,
    pub rows: Vec<u32>,
}

const MAX_TEXT: usize = 65_536;
pub const MAX_NAMES: usize = 64;

impl Builtins {
    /// Where each name starts and ends. An odd number at the end is left over.
    pub fn places(&self) -> &[[u32; 2]] {
        self.rows.as_chunks().0
    }

    /// The names, in order. None is what refusal 18 is for: 'a built-in text over 65,536 bytes, over 64 names, a bad span,
    /// a name that isn't an identifier, or the same name twice'.
    pub fn words(&self) -> Option<Vec<&str>> {
        if self.text.len() > MAX_TEXT || self.places().len() > MAX_NAMES {
            return None;
        }
        let mut seen = HashSet::new();
        let word = |[start, end]: &[u32; 2]| {
            let word = self.text.get(*start as usize..*end as usize)?;
            let is_right = fits(IDENTIFIER, word) && seen.insert(word);
            is_right.then(|| str::from_utf8(word).expect("an identifier is ASCII"))
        };
        self.places().iter().map(word).collect()
    }
}
