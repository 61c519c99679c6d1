//! A safe interface to the proved reader of Kaori scripts and guards.
//!
//! The reader writes a script's tree as rows of numbers into rooms that the caller lends. [`Rooms`] holds such rooms;
//! they serve any number of calls and need no clearing. [`Rooms::read`] takes a text, [`Rooms::parse`] a text and its
//! tokens. Both answer with a [`Tree`] over the rooms, or with a [`Refusal`]. The functions [`read`] and [`parse`] do
//! the same over slices of the caller's own. These four read edition 1 of the language beside no built-in names; each has
//! another form, as [`Rooms::read_with`], for both to be named. [`Rooms::guard`] reads a guard, which is one expression.
//! Nothing here panics, whatever is handed over.
//!
//! ```
//! use kaori_syntax::{Node, Rooms};
//!
//! let mut rooms = Rooms::for_tokens(64);
//! let tree = rooms.read(b"let total = price * 2;", 64)?;
//!
//! // children come before parents: `price`, `2`, the product, the variable, the root
//! assert_eq!(tree.rows().count(), 5);
//! let names: Vec<_> = tree
//!     .rows()
//!     .filter_map(|row| match row.node {
//!         Node::Identifier(name) | Node::Variable { left: name, .. } => tree.symbol(name.symbol),
//!         _ => None,
//!     })
//!     .collect();
//! assert_eq!(names, [b"price", b"total"]);
//! # Ok::<(), kaori_syntax::Refusal>(())
//! ```
//!
//! From the root down:
//!
//! ```
//! use kaori_syntax::{BinaryOp, Node, Rooms, Span};
//!
//! let mut rooms = Rooms::for_tokens(64);
//! let tree = rooms.read(b"let total = price * 2;", 64)?;
//! let Some(Node::Block { statements, tail: None }) = tree.root().map(|row| row.node) else { panic!() };
//! let Some(first) = statements.iter().next().and_then(|number| tree.row(number)) else { panic!() };
//! assert_eq!(first.span, Span { start: 0, end: 21 });
//! let Node::Variable { right, .. } = first.node else { panic!() };
//! let Some(Node::Binary { operator, .. }) = tree.row(right).map(|row| row.node) else { panic!() };
//! assert_eq!(operator, BinaryOp::Multiply);
//! # Ok::<(), kaori_syntax::Refusal>(())
//! ```
//!
//! And from a row outward, parent by parent, as from a word that is clicked on:
//!
//! ```
//! use kaori_syntax::{Node, Rooms};
//!
//! let mut rooms = Rooms::for_tokens(64);
//! let tree = rooms.read(b"fun draw(i) { while i < 9 { show(i + 1); } }", 64)?;
//!
//! // around the `i` of `i + 1`: the sum, the call, a block, the loop, a block, the function, the root
//! let Some(name) = tree.rows().find(|row| row.span.start == 33) else { panic!() };
//! assert!(matches!(name.node, Node::Identifier(_)));
//! assert_eq!(tree.outward(name.number).count(), 8);
//! let function = tree.outward(name.number).find_map(|row| match row.node {
//!     Node::Function { name, .. } => tree.symbol(name.symbol),
//!     _ => None,
//! });
//! assert_eq!(function, Some(&b"draw"[..]));
//! # Ok::<(), kaori_syntax::Refusal>(())
//! ```
//!
//! Rooms may have fewer rows than the script has tokens, since most trees need fewer. Where a row does not fit the script
//! is refused by 4, and can be read again in larger rooms:
//!
//! ```
//! use kaori_syntax::Rooms;
//!
//! let text = b"let total = price * 2;"; // 8 tokens, the Eof counted
//! let mut rooms = Rooms::with_rows(5, 1, 2, 8); // just what its tree has
//! assert_eq!(rooms.read(text, 64)?.rows().count(), 5);
//!
//! let mut rooms = Rooms::with_rows(1, 1, 1, 8);
//! let tree = loop {
//!     match rooms.read(text, 64) {
//!         Ok(tree) => break tree,
//!         Err(why) => rooms.grow(why)?,
//!     }
//! };
//! assert_eq!(tree.rows().count(), 5);
//! # Ok::<(), kaori_syntax::Refusal>(())
//! ```
//!
//! Built-in names are lent beside a script, and have the same symbols in every one:
//!
//! ```
//! use kaori_syntax::{Edition, Node, OwnedBuiltins, Rooms};
//!
//! let station = OwnedBuiltins::new(&["show", "print"]);
//! let mut rooms = Rooms::for_tokens_with(station.lend(), 64);
//! let tree = rooms.read_with(station.lend(), b"a(print);", Edition::FIRST, 64)?;
//! let symbols: Vec<_> = tree
//!     .rows()
//!     .filter_map(|row| match row.node {
//!         Node::Identifier(name) => Some((name.symbol, tree.symbol(name.symbol)?)),
//!         _ => None,
//!     })
//!     .collect();
//! assert_eq!(symbols, [(2, &b"a"[..]), (1, &b"print"[..])]);
//! # Ok::<(), kaori_syntax::Refusal>(())
//! ```
//!
//! In the second edition of the language `not` binds as a sign does, among other things ([`Edition`]):
//!
//! ```
//! use kaori_syntax::{Builtins, Edition, Node, Rooms};
//!
//! let mut rooms = Rooms::for_tokens(16);
//! let tree = rooms.read_with(Builtins::NONE, b"not a and b;", Edition::SECOND, 64)?;
//! assert_eq!(tree.row(3).map(|row| row.node), Some(Node::LogicalAnd { left: 1, right: 2 }));
//! let tree = rooms.read_with(Builtins::NONE, b"not a and b;", Edition::FIRST, 64)?;
//! assert_eq!(tree.row(3).map(|row| row.node), Some(Node::LogicalNot(2)));
//! # Ok::<(), kaori_syntax::Refusal>(())
//! ```
//!
//! A station's scripts are read in one call, up to 32 of them: each as it would be by itself, whatever the others are.
//! [`Station`] has the rooms for that.
//!
//! ```
//! use kaori_syntax::{Code, Station};
//!
//! let mut station = Station::for_tokens(32, 64); // 32 scripts of up to 64 tokens each
//! let scripts = station.read(&["show(time);", "show(time", "let late = 5;"], 64)?;
//! let rows: Vec<_> = scripts.iter().map(|script| script.map(|tree| tree.rows().count())).collect();
//! assert_eq!((rows.len(), rows[0], rows[2]), (3, Ok(4), Ok(3)));
//! let why = rows[1].unwrap_err();
//! assert_eq!((why.code, why.span.start), (Code::Required, 9)); // in its own text
//! # Ok::<(), kaori_syntax::TurnedAway>(())
//! ```
//!
//! A guard is one expression and then the Eof, with no `;`. None of its tokens is `{`, `if`, `|` or `#`, and no block stands
//! around it: its tree's last row is the expression's own. [`read_guard_with`] says what is refused.
//!
//! ```
//! use kaori_syntax::{Code, Kind, Node, Rooms};
//!
//! let mut rooms = Rooms::for_tokens(16);
//! let tree = rooms.guard(b"typed == 0 and refreshed", 64)?;
//! let last = tree.root().unwrap();
//! assert_eq!((last.node, last.parent), (Node::LogicalAnd { left: 2, right: 3 }, None));
//!
//! let why = rooms.guard(b"typed;", 64).unwrap_err();
//! assert_eq!((why.code, why.at, why.expected), (Code::Required, 1, Some(Kind::Eof)));
//! let why = rooms.guard(b"typed {", 64).unwrap_err();
//! assert_eq!((why.code, why.at, why.found), (Code::Outside, 1, Some(Kind::LeftBrace)));
//! assert_eq!(why.to_string(), "a guard has no {, if, | or #");
//! # Ok::<(), kaori_syntax::Refusal>(())
//! ```
//!
//! From a row inward, child by child in the order of the text, and the whole text that a row covers, which is more than its
//! span:
//!
//! ```
//! use kaori_syntax::{Rooms, Span};
//!
//! let text = b"show((price + 2) * rate, 1);";
//! let mut rooms = Rooms::for_tokens(64);
//! let tree = rooms.read(text, 64)?;
//! let call = tree.children(tree.root().unwrap().number).next().unwrap();
//! assert_eq!(call.span, Span { start: 4, end: 27 }); // from its `(`
//! let covered = |number| tree.cover(number).and_then(|span| span.of(text)).unwrap();
//! assert_eq!(covered(call.number), b"show((price + 2) * rate, 1)");
//! let arguments: Vec<_> = tree.children(call.number).skip(1).map(|row| covered(row.number)).collect();
//! assert_eq!(arguments, [&b"(price + 2) * rate"[..], b"1"]);
//! # Ok::<(), kaori_syntax::Refusal>(())
//! ```
//!
//! Rows that another build wrote become a tree only if they pass a check, so that a tree over them is as safe to walk as one
//! that was read here: [`Tree::from_rows`].
//!
//! ```
//! use kaori_syntax::{Edition, Rooms, Tree};
//!
//! let mut rooms = Rooms::for_tokens(16);
//! let sent = rooms.read(b"show(price * 2);", 64)?; // six rows, two links, two symbols
//! let [mut nodes, links, symbols] = [sent.node_rows().concat(), sent.link_rows().concat(), sent.symbol_rows().concat()];
//!
//! let mut scratch = [0; 10];
//! let tree = Tree::from_rows(&nodes, &links, &symbols, [6, 2, 2], Edition::FIRST, &mut scratch).unwrap();
//! assert!(tree.children(4).map(|row| row.number).eq([0, 3]));
//!
//! nodes[34] = 3; // the product's left side is the product itself
//! let why = Tree::from_rows(&nodes, &links, &symbols, [6, 2, 2], Edition::FIRST, &mut scratch).unwrap_err();
//! assert_eq!(why.to_string(), "row 3 breaks rule 3: a row that is named is an earlier one");
//! # Ok::<(), kaori_syntax::Refusal>(())
//! ```
//!
//! Statements that are no longer used are dropped where their rows stand, and the rows that are left are those of the shorter
//! script: [`Rooms::keep`]. [`Tree::keep`] packs a copy in other rooms, and the old tree stays.
//!
//! ```
//! use kaori_syntax::Rooms;
//!
//! let text = b"show(early); show(late); show(early);";
//! let mut rooms = Rooms::for_tokens(16);
//! let held = rooms.read(text, 64)?.held(); // ten rows, six links, three symbols
//! let tree = rooms.keep(held, &[false, true, false]).unwrap().with_text(text);
//! assert_eq!((tree.rows().count(), tree.link_rows().len(), tree.symbol_rows().len()), (4, 2, 2));
//! assert_eq!(tree.symbol(1), Some(&b"late"[..]));
//! # Ok::<(), kaori_syntax::Refusal>(())
//! ```
//!
//! A refusal has a code, a place and a text:
//!
//! ```
//! use kaori_syntax::{Code, Rooms, place};
//!
//! let text = b"a;\nreturn;";
//! let refusal = Rooms::for_tokens(16).read(text, 64).unwrap_err();
//! assert_eq!((refusal.code, refusal.at), (Code::Operand, 3));
//! assert_eq!(refusal.to_string(), "expected a <operand> and found: `;`");
//! let place = place(text, refusal.span.start as usize).unwrap();
//! assert_eq!((place.line, place.column), (2, 7));
//! ```
//!
//! And it can be asked what could have stood there, and what was open: [`Expected`].
//!
//! ```
//! use kaori_syntax::{Kind, Rooms, Sort};
//!
//! let mut rooms = Rooms::for_tokens(16);
//! let refusal = rooms.read(b"show(time platform);", 64).unwrap_err();
//! let expected = rooms.expected(refusal);
//! assert_eq!(refusal.expected, Some(Kind::Comma)); // but `)` would have done, too
//! assert!(expected.contains(Kind::Comma) && expected.contains(Kind::RightParen));
//! assert_eq!(expected.open().iter().map(|opening| opening.sort).collect::<Vec<_>>(), [Sort::Expression]);
//! ```
//!
//! The crate has no dependencies. Without the feature `std` it is `no_std`; without `alloc`, which `std` brings, there are no
//! [`Rooms`], no [`Tree::keep`], no [`Station`] and no [`OwnedBuiltins`], and everything else is there: the functions over
//! slices of the caller's own.
#![cfg_attr(not(any(feature = "std", test)), no_std)]
#![deny(unsafe_code, missing_docs)]
#[cfg(feature = "alloc")]
extern crate alloc;

use core::fmt;

mod builtins;
mod cover;
mod expected;
mod foreign;
mod keep;
mod node;
mod numbered;
mod raw;
#[cfg(feature = "alloc")]
mod rooms;
mod scripts;
#[cfg(feature = "alloc")]
mod station;

#[cfg(feature = "alloc")]
pub use builtins::OwnedBuiltins;
pub use builtins::{Builtins, name};
pub use expected::{Expected, Opening, Sort, expected};
pub use foreign::RowsRefusal;
pub use keep::{Held, keep};
pub use node::{
    BinaryOp, Children, Entries, Items, Name, Names, Node, Nodes, Outward, Row, Rows, Span, Token, Tokens,
    Tree, UnaryOp,
};
pub use numbered::{Code, Kind, Rule};
#[cfg(feature = "alloc")]
pub use rooms::Rooms;
pub use scripts::{EachScript, Scripts, TurnedAway, parse_scripts, read_scripts};
#[cfg(feature = "alloc")]
pub use station::Station;

/// The most tokens of a script, the Eof at its end counted.
pub const MAX_TOKENS: usize = 4096;
/// The most bytes of a text.
pub const MAX_TEXT: usize = 65_536;
/// The greatest depth limit.
pub const MAX_DEPTH: u32 = 64;
/// The most built-in names.
pub const MAX_NAMES: usize = 64;
/// The most scripts of a call that reads a station's together.
pub const MAX_SCRIPTS: usize = 32;

/// The numbers of a token in a list.
pub const TOKEN_WIDTH: usize = 3;
/// The numbers of a node row.
pub const NODE_WIDTH: usize = 10;
/// The numbers of a link row.
pub const LINK_WIDTH: usize = 3;
/// The numbers of a symbol row.
pub const SYMBOL_WIDTH: usize = 2;
/// The numbers of a scratch row.
pub const SCRATCH_WIDTH: usize = 3;
/// The numbers of a script's cuts: where it ends in the joined text, and where in the joined list.
pub const CUT_WIDTH: usize = 2;
/// The numbers of a script's answer.
pub const ANSWER_WIDTH: usize = 8;

const NO_KIND: u32 = 255;

/// An edition of Kaori, by its number. Any number but 1 and 2 is refused by 21.
///
/// In edition 2 `not` takes an operand as a sign does, its span runs to the operand's end, and it counts as an opening;
/// `return` before `;` or `}` has no child and its own token's span; and calls and dots may follow a `)` that closes an
/// expression.
///
/// ```
/// use kaori_syntax::{Builtins, Code, Edition, Node, Refusal, Rooms};
///
/// let mut rooms = Rooms::for_tokens(16);
/// let mut first_row = |text, edition| {
///     let tree = rooms.read_with(Builtins::NONE, text, edition, 64)?;
///     Ok(tree.row(0).is_some_and(|row| matches!(row.node, Node::Return(None))))
/// };
/// assert_eq!(first_row(b"return;", Edition::SECOND), Ok(true));
/// assert_eq!(first_row(b"return;", Edition::FIRST).map_err(|why: Refusal| why.code), Err(Code::Operand));
/// assert_eq!(first_row(b"return;", Edition(3)).map_err(|why| why.code), Err(Code::BadEdition));
/// ```
#[derive(Clone, Copy, PartialEq, Eq, Debug)]
pub struct Edition(pub u32);

impl Edition {
    /// The language of document 01, which [`read`] and [`parse`] read.
    pub const FIRST: Edition = Edition(1);
    /// The language of document 02's request L14.
    pub const SECOND: Edition = Edition(2);
}

/// What the reader writes into, lent for a call; what it holds does not matter. `scratch` needs as many rows as there are
/// tokens. The others may be of any size: with as many rows as the script's tree has it is read, with fewer it is refused
/// by 4. As many rows as there are tokens are always enough, for symbols with a row more for each built-in name.
///
/// After a success each room has the script's rows and then zeros, `scratch` zeros alone. After a refusal that was met in
/// reading, one with code 8 to 11 or a 4 with [`Refusal::found`], all are zeros; after any other all are as they were.
#[derive(Debug)]
pub struct Lent<'a> {
    /// [`NODE_WIDTH`] numbers a row.
    pub nodes: &'a mut [u32],
    /// [`LINK_WIDTH`] numbers a row.
    pub links: &'a mut [u32],
    /// [`SYMBOL_WIDTH`] numbers a row.
    pub symbols: &'a mut [u32],
    /// [`SCRATCH_WIDTH`] numbers a row; of use to the reader alone.
    pub scratch: &'a mut [u32],
}

/// Why a script or a guard was refused, and where. [`Code`] says when each is given; the first that applies is.
#[derive(Clone, Copy, PartialEq, Eq, Debug)]
pub struct Refusal {
    /// From 1 to 11, 16, 18 or 21; of a guard 17 too, and never 10.
    pub code: Code,
    /// The token's number, for codes 6 to 11 and 17 and a 4 that was met in reading; else 0.
    pub at: u32,
    /// The token's place in the text; for codes 5 and 16 a byte's; else 0, 0.
    pub span: Span,
    /// The byte of the text at its place, for codes 5 and 16. A 16 at a quote is a string that is not closed.
    pub byte: Option<u8>,
    /// The kind that was required there, for code 8.
    pub expected: Option<Kind>,
    /// The kind of the token, for codes 6 to 11 and 17 and a 4 that was met in reading; none for a 6 whose token has a number
    /// that is no kind. So it tells the two sorts of 4 apart, also where all other numbers are the same: without a kind it is `scratch`
    /// that is too small, or the symbol room for the built-in names.
    pub found: Option<Kind>,
    /// The edition that it was read in.
    pub edition: Edition,
    /// The limit that it was read within.
    pub limit: u32,
    /// Whether it was read as a guard. A guard has no hint: [`expected()`] looks at a list as a script's, and tells nothing
    /// then.
    pub guard: bool,
}

impl Refusal {
    /// The text that the Rust parser's error has, for codes 8 to 11; empty for any other. [`Refusal::reason`] has one for each.
    ///
    /// ```
    /// use kaori_syntax::{Kind, Rooms};
    ///
    /// let mut rooms = Rooms::for_tokens(8);
    /// let refusal = rooms.read(b"f(a", 64).unwrap_err();
    /// assert_eq!(refusal.message().as_str(), "expected `,` and found <end of file>");
    /// assert_eq!((refusal.expected, refusal.found), (Some(Kind::Comma), Some(Kind::Eof)));
    /// assert_eq!(rooms.read(b"a @", 64).unwrap_err().message().as_str(), "");
    /// ```
    pub fn message(&self) -> Message {
        let mut bytes = [0; 52];
        let length = raw::message(self.code as u32, number(self.expected), number(self.found), &mut bytes);
        Message { bytes, length }
    }

    /// The text of the refusal: that of [`Refusal::message`] for codes 8 to 11, and one for each other code.
    ///
    /// ```
    /// use kaori_syntax::Rooms;
    ///
    /// let mut rooms = Rooms::for_tokens(8);
    /// let mut reason = |text: &[u8], limit| rooms.read(text, limit).unwrap_err().reason();
    /// assert_eq!(reason(b"f(a", 64).as_str(), "expected `,` and found <end of file>");
    /// assert_eq!(reason(b"a @", 64).as_str(), "no token starts here");
    /// assert_eq!(reason(b"a = \"b;", 64).as_str(), "a string that is not closed");
    /// assert_eq!(reason(b"a;", 65).as_str(), "the depth limit is not from 1 to 64");
    /// ```
    pub fn reason(&self) -> Message {
        let mut bytes = [0; 52];
        let (expected, found) = (number(self.expected), number(self.found));
        // the byte at the place is all that the text is asked for
        let length = raw::reason(self.byte.as_slice(), self.code as u32, 0, expected, found, &mut bytes);
        Message { bytes, length }
    }
}

fn number(kind: Option<Kind>) -> u32 {
    kind.map_or(NO_KIND, |kind| kind as u32)
}

impl fmt::Display for Refusal {
    /// The reason, or the code and the place where there is none: an 8 or a 9 that is made by hand, without its kinds.
    fn fmt(&self, f: &mut fmt::Formatter<'_>) -> fmt::Result {
        match self.reason().as_str() {
            "" => write!(f, "refusal {} at {}..{}", self.code as u32, self.span.start, self.span.end),
            text => f.write_str(text),
        }
    }
}

impl core::error::Error for Refusal {}

impl fmt::Display for Kind {
    /// As messages name it: a spelling between backquotes, or what it is.
    ///
    /// ```
    /// use kaori_syntax::Kind;
    ///
    /// assert_eq!([Kind::While, Kind::Eof].map(|kind| kind.to_string()), ["`while`", "<end of file>"]);
    /// ```
    fn fmt(&self, f: &mut fmt::Formatter<'_>) -> fmt::Result {
        // it stands twice in `expected .. and found ..`
        let (mut bytes, kind) = ([0; 52], *self as u32);
        let length = raw::message(Code::Required as u32, kind, kind, &mut bytes);
        let text = Message { bytes, length };
        f.pad(text.as_str().split_once(" and found ").map_or("", |(_, name)| name))
    }
}

/// The text of a refusal, at most 52 bytes.
#[derive(Clone, Copy, Debug)]
pub struct Message {
    bytes: [u8; 52],
    length: usize,
}

impl Message {
    /// The text.
    pub fn as_str(&self) -> &str {
        self.bytes.get(..self.length).and_then(|bytes| core::str::from_utf8(bytes).ok()).unwrap_or("")
    }
}

/// A line and a column, both from 1; columns count bytes. A line ends at a byte 10, at 13 10 together, or at a 13 alone.
#[derive(Clone, Copy, PartialEq, Eq, Debug)]
pub struct Place {
    /// One more than the ends of lines before the place. At the 10 of a pair the pair is not over.
    pub line: u32,
    /// One more than the bytes before it in its line.
    pub column: u32,
}

/// The line and the column of an offset. None: the text is over [`MAX_TEXT`], or the offset past its end.
///
/// ```
/// use kaori_syntax::{Place, place};
///
/// assert_eq!(place(b"a;\nb;", 4), Some(Place { line: 2, column: 2 }));
/// assert_eq!(place(b"a;\rb;", 4), Some(Place { line: 2, column: 2 }));
/// assert_eq!(place(b"a;\r\nb;", 3), Some(Place { line: 1, column: 4 })); // the 10 of a pair
/// assert_eq!(place(b"a;\nb;", 6), None);
/// ```
pub fn place(text: &[u8], offset: usize) -> Option<Place> {
    let mut answer = [0; 3];
    let code = raw::place(text, offset, &mut answer);
    let [_, line, column] = answer;
    (code == 0).then_some(Place { line, column })
}

/// Reads a script's text, in edition 1. `list` takes its tokens, three numbers each and zeros after the Eof; `limit` is the deepest nesting
/// that is read, from 1 to [`MAX_DEPTH`].
///
/// ```
/// use kaori_syntax::{Code, Lent, Rooms, read};
///
/// let mut rooms = Rooms::for_tokens(8);
/// assert_eq!(rooms.read(b"((a));", 2).unwrap_err().code, Code::TooDeep);
/// assert_eq!(rooms.read(b"((a));", 3)?.rows().count(), 2);
/// assert_eq!(rooms.read(b"a; b; c; d;", 64).unwrap_err().code, Code::BadCount); // 9 tokens
///
/// // the same in arrays of the caller's
/// let (mut list, mut nodes, mut links, mut symbols, mut scratch) = ([0; 24], [0; 80], [0; 24], [0; 16], [0; 24]);
/// let lent = Lent { nodes: &mut nodes, links: &mut links, symbols: &mut symbols, scratch: &mut scratch };
/// assert_eq!(read(b"((a));", &mut list, 3, lent)?.rows().count(), 2);
/// # Ok::<(), kaori_syntax::Refusal>(())
/// ```
pub fn read<'a>(
    text: &'a [u8],
    list: &'a mut [u32],
    limit: u32,
    rooms: Lent<'a>,
) -> Result<Tree<'a>, Refusal> {
    let Lent { nodes, links, symbols, scratch } = rooms;
    let mut answer = [0; 8];
    let code = raw::read(text, list, limit, nodes, links, symbols, scratch, &mut answer);
    let read = (Edition::FIRST, limit, false);
    tree(answer, read, Builtins::NONE, text, made(list, code), [nodes, links, symbols, scratch])
}

/// [`read`] beside built-in names, in an edition.
pub fn read_with<'a>(
    builtins: Builtins<'a>,
    text: &'a [u8],
    list: &'a mut [u32],
    Edition(edition): Edition,
    limit: u32,
    rooms: Lent<'a>,
) -> Result<Tree<'a>, Refusal> {
    let Lent { nodes, links, symbols, scratch } = rooms;
    let Builtins { text: names, rows } = builtins;
    let mut answer = [0; 8];
    let code =
        raw::read_with(names, rows, text, list, edition, limit, nodes, links, symbols, scratch, &mut answer);
    let read = (Edition(edition), limit, false);
    tree(answer, read, builtins, text, made(list, code), [nodes, links, symbols, scratch])
}

/// Reads a guard's text beside built-in names, in an edition: one expression, and then the Eof, with no `;`. `list` and `limit`
/// are as in [`read`].
///
/// A token that is `{`, `if`, `|` or `#` is refused by 17 before reading, the first of them, and the rooms stay as they were.
/// Where tokens remain behind the expression it is an 8, and [`Kind::Eof`] was required. The tree's last row is the expression's
/// own: the rows are those of the script with a `;` behind it, but for that script's root.
///
/// ```
/// use kaori_syntax::{Builtins, Code, Edition, Lent, read_guard_with};
///
/// let (mut list, mut nodes, mut links, mut symbols, mut scratch) = ([0; 24], [0; 80], [0; 24], [0; 16], [0; 24]);
/// let mut rows = |text, edition| {
///     let lent = Lent { nodes: &mut nodes, links: &mut links, symbols: &mut symbols, scratch: &mut scratch };
///     let read = read_guard_with(Builtins::NONE, text, &mut list, edition, 64, lent);
///     read.map(|tree| tree.rows().count()).map_err(|why| (why.code, why.at))
/// };
/// assert_eq!(rows(b"(f)(x)", Edition::SECOND), Ok(3)); // f, x, the call
/// assert_eq!(rows(b"(f)(x)", Edition::FIRST), Err((Code::Required, 3)));
/// assert_eq!(rows(b"f(|x| x)", Edition::FIRST), Err((Code::Outside, 2)));
/// ```
pub fn read_guard_with<'a>(
    builtins: Builtins<'a>,
    text: &'a [u8],
    list: &'a mut [u32],
    Edition(edition): Edition,
    limit: u32,
    rooms: Lent<'a>,
) -> Result<Tree<'a>, Refusal> {
    let Lent { nodes, links, symbols, scratch } = rooms;
    let Builtins { text: names, rows } = builtins;
    let mut answer = [0; 8];
    let code = raw::read_guard_with(
        names,
        rows,
        text,
        list,
        edition,
        limit,
        nodes,
        links,
        symbols,
        scratch,
        &mut answer,
    );
    let read = (Edition(edition), limit, true);
    tree(answer, read, builtins, text, made(list, code), [nodes, links, symbols, scratch])
}

/// The tokens of a list that was made. How many there are matters after a 4 alone.
fn made(list: &[u32], code: u32) -> &[u32] {
    if code == Code::SmallRoom as u32 { upto_eof(list).as_flattened() } else { list }
}

/// The tokens of a list up to their Eof, after which a room for tokens has zeros.
fn upto_eof(list: &[u32]) -> &[[u32; TOKEN_WIDTH]] {
    let tokens: &[[u32; TOKEN_WIDTH]] = list.as_chunks().0;
    let eof = tokens.iter().position(|&[kind, ..]| kind == Kind::Eof as u32);
    eof.and_then(|eof| tokens.get(..=eof)).unwrap_or(tokens)
}

/// Reads a script of edition 1 that is given as its text and its tokens: three numbers each, kind, start and end, an Eof last. Kinds are
/// numbered in the order of token.rs's `Token`, from 0, so that a `Token` is handed over as `token as u32`; [`Kind`] names them.
///
/// ```
/// use kaori_syntax::{Code, Kind, Rooms};
///
/// let [name, semicolon, eof] = [Kind::Identifier, Kind::Semicolon, Kind::Eof].map(u32::from);
/// let tokens = [name, 0, 1, semicolon, 1, 2, eof, 2, 2];
/// let mut rooms = Rooms::for_tokens(3);
/// assert_eq!(rooms.parse(b"a;", &tokens, 64)?.rows().count(), 2);
/// assert_eq!(rooms.parse(b"a;", &tokens[..5], 64).unwrap_err().code, Code::BadCount);
/// # Ok::<(), kaori_syntax::Refusal>(())
/// ```
pub fn parse<'a>(
    text: &'a [u8],
    tokens: &'a [u32],
    limit: u32,
    rooms: Lent<'a>,
) -> Result<Tree<'a>, Refusal> {
    let Lent { nodes, links, symbols, scratch } = rooms;
    let mut answer = [0; 8];
    raw::parse(text, tokens, limit, nodes, links, symbols, scratch, &mut answer);
    let read = (Edition::FIRST, limit, false);
    tree(answer, read, Builtins::NONE, text, tokens, [nodes, links, symbols, scratch])
}

/// [`parse`] beside built-in names, in an edition.
pub fn parse_with<'a>(
    builtins: Builtins<'a>,
    text: &'a [u8],
    tokens: &'a [u32],
    Edition(edition): Edition,
    limit: u32,
    rooms: Lent<'a>,
) -> Result<Tree<'a>, Refusal> {
    let Lent { nodes, links, symbols, scratch } = rooms;
    let Builtins { text: names, rows } = builtins;
    let mut answer = [0; 8];
    raw::parse_with(names, rows, text, tokens, edition, limit, nodes, links, symbols, scratch, &mut answer);
    let read = (Edition(edition), limit, false);
    tree(answer, read, builtins, text, tokens, [nodes, links, symbols, scratch])
}

/// Reads a guard that is given as its text and its tokens, beside built-in names and in an edition: [`read_guard_with`] says what
/// a guard is, [`parse`] how tokens are handed over.
///
/// ```
/// use kaori_syntax::{Builtins, Code, Edition, Kind, Rooms};
///
/// let [name, semicolon, eof] = [Kind::Identifier, Kind::Semicolon, Kind::Eof].map(u32::from);
/// let mut rooms = Rooms::for_tokens(3);
/// let tokens = [name, 0, 1, eof, 1, 1];
/// assert_eq!(rooms.guard_with(Builtins::NONE, b"a", &tokens, Edition::FIRST, 64)?.rows().count(), 1);
/// let tokens = [name, 0, 1, semicolon, 1, 2, eof, 2, 2];
/// let why = rooms.guard_with(Builtins::NONE, b"a;", &tokens, Edition::FIRST, 64).unwrap_err();
/// assert_eq!((why.code, why.at, why.expected), (Code::Required, 1, Some(Kind::Eof)));
/// # Ok::<(), kaori_syntax::Refusal>(())
/// ```
pub fn guard_with<'a>(
    builtins: Builtins<'a>,
    text: &'a [u8],
    tokens: &'a [u32],
    Edition(edition): Edition,
    limit: u32,
    rooms: Lent<'a>,
) -> Result<Tree<'a>, Refusal> {
    let Lent { nodes, links, symbols, scratch } = rooms;
    let Builtins { text: names, rows } = builtins;
    let mut answer = [0; 8];
    raw::guard_with(names, rows, text, tokens, edition, limit, nodes, links, symbols, scratch, &mut answer);
    let read = (Edition(edition), limit, true);
    tree(answer, read, builtins, text, tokens, [nodes, links, symbols, scratch])
}

/// What comes of an answer; `guard` tells whether a guard was read, and the rooms are as they were left.
fn tree<'a>(
    [code, node_rows, link_rows, symbol_rows, at, start, end, expected]: [u32; 8],
    (edition, limit, guard): (Edition, u32, bool),
    builtins: Builtins<'a>,
    text: &'a [u8],
    tokens: &'a [u32],
    [nodes, links, symbols, scratch]: [&'a [u32]; 4],
) -> Result<Tree<'a>, Refusal> {
    if code == 0 {
        let rows = [(nodes, node_rows), (links, link_rows), (symbols, symbol_rows)];
        return Ok(Tree::new(builtins, Some(text), tokens, edition, rows));
    }
    // the reader has no other codes
    let code = Code::from_u32(code).unwrap_or(Code::SmallAnswer);
    let names_token = match code {
        Code::SmallRoom => {
            tokens.len() / TOKEN_WIDTH <= scratch.len() / SCRATCH_WIDTH
                && builtins.count() as usize <= symbols.len() / SYMBOL_WIDTH
        }
        Code::Outside => true,
        _ => (Code::BadToken..=Code::TooDeep).contains(&code),
    };
    let token = tokens.as_chunks::<TOKEN_WIDTH>().0.get(at as usize).filter(|_| names_token);
    let found = token.and_then(|&[kind, ..]| Kind::from_u32(kind));
    let byte = text.get(start as usize).filter(|_| matches!(code, Code::HighByte | Code::NoToken)).copied();
    let expected = Kind::from_u32(expected);
    Err(Refusal { code, at, span: Span { start, end }, byte, expected, found, edition, limit, guard })
}
