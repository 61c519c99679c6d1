//! Built-in names, and the name of a symbol.
#[cfg(feature = "alloc")]
use alloc::vec::Vec;

use crate::{SYMBOL_WIDTH, raw};

/// Names that are lent beside a script. They have the same symbols in every script, 0 onward, and the names of the script's
/// own follow; a name or a string that spells one of them has its symbol.
#[derive(Clone, Copy, Debug, Default)]
pub struct Builtins<'a> {
    /// At most [`MAX_TEXT`](crate::MAX_TEXT) bytes, in which the names stand.
    pub text: &'a [u8],
    /// Where each name starts and ends in the text: [`SYMBOL_WIDTH`] numbers a row, for at most [`MAX_NAMES`](crate::MAX_NAMES)
    /// names. A number left over is not looked at.
    pub rows: &'a [u32],
}

impl<'a> Builtins<'a> {
    /// No names: a script of edition 1 is read as by [`read`](crate::read) and [`parse`](crate::parse).
    pub const NONE: Builtins<'static> = Builtins { text: &[], rows: &[] };

    /// How many names there are: the symbols below this are theirs.
    pub fn count(&self) -> u32 {
        u32::try_from(self.rows.len() / SYMBOL_WIDTH).unwrap_or(u32::MAX)
    }
}

/// Built-in names of the crate's own, to be lent again and again.
///
/// ```
/// use kaori_syntax::{Code, Edition, OwnedBuiltins, Rooms};
///
/// let station = OwnedBuiltins::new(&["show", "print"]);
/// let mut rooms = Rooms::for_tokens_with(station.lend(), 16);
/// let tree = rooms.read_with(station.lend(), b"let a = 1; print(a);", Edition::FIRST, 64)?;
/// let names: Vec<_> = (0..3).map(|symbol| tree.symbol(symbol)).collect();
/// assert_eq!(names, [Some(&b"show"[..]), Some(&b"print"[..]), Some(&b"a"[..])]);
/// assert_eq!(tree.symbol(3), None);
///
/// // each is an identifier, and no two are the same
/// let wrong = OwnedBuiltins::new(&["show", "if"]);
/// assert_eq!(rooms.read_with(wrong.lend(), b"a;", Edition::FIRST, 64).unwrap_err().code, Code::BadNames);
/// # Ok::<(), kaori_syntax::Refusal>(())
/// ```
#[cfg(feature = "alloc")]
#[derive(Clone, Debug, Default)]
pub struct OwnedBuiltins {
    text: Vec<u8>,
    rows: Vec<u32>,
}

#[cfg(feature = "alloc")]
impl OwnedBuiltins {
    /// These names, in this order: the first is symbol 0. Nothing is asked of them here; the call that they are lent to refuses
    /// wrong ones by 18.
    pub fn new(names: &[&str]) -> OwnedBuiltins {
        let mut own = OwnedBuiltins::default();
        for name in names {
            own.rows.push(own.end());
            own.text.extend(name.as_bytes());
            own.rows.push(own.end());
        }
        own
    }

    /// To be lent beside a script.
    pub fn lend(&self) -> Builtins<'_> {
        Builtins { text: &self.text, rows: &self.rows }
    }

    /// Where the next name starts. A text that is so long that no number has its end is refused for its length.
    fn end(&self) -> u32 {
        u32::try_from(self.text.len()).unwrap_or(u32::MAX)
    }
}

/// The name of a symbol, as a part of the text that has it: the built-in names' for a symbol below their count, and else the
/// script's. `symbols` are symbol rows, of which `count` are in use. None: the symbol is not below the count, or its row is
/// none of its text. [`Tree::symbol`](crate::Tree::symbol) is the same for the rows of a script that was read.
///
/// ```
/// use kaori_syntax::{OwnedBuiltins, name};
///
/// let station = OwnedBuiltins::new(&["show"]);
/// let (text, symbols) = (b"show(total);", [0, 4, 5, 10]);
/// assert_eq!(name(station.lend(), text, &symbols, 2, 0), Some(&b"show"[..]));
/// assert_eq!(name(station.lend(), text, &symbols, 2, 1), Some(&b"total"[..]));
/// assert_eq!(name(station.lend(), text, &symbols, 1, 1), None);
/// ```
pub fn name<'a>(
    builtins: Builtins<'a>,
    text: &'a [u8],
    symbols: &[u32],
    count: u32,
    symbol: u32,
) -> Option<&'a [u8]> {
    let built = builtins.count();
    let mut answer = [0; 3];
    let code = raw::name(builtins.text, text, symbols, count, built, symbol, &mut answer);
    let [_, start, end] = answer;
    let own = if symbol < built { builtins.text } else { text };
    own.get(start as usize..end as usize).filter(|_| code == 0)
}
