//! What could have stood at a refused token, and what was open there.
use core::fmt;

use crate::{Edition, Kind, Refusal, TOKEN_WIDTH, raw};

/// The most open constructs: as many as the greatest depth limit.
const MAX_OPEN: usize = 64;
/// What stands before the pairs of the chain: how many kinds, the lowest and how many constructs are open.
const HEAD: usize = 3;
/// The numbers of an open construct: its sort and its token.
const OPENING_WIDTH: usize = 2;
const TOLD: usize = HEAD + OPENING_WIDTH * MAX_OPEN;

/// The kinds of token that could have stood where a script was refused, and the constructs that were open there.
///
/// A kind is among them exactly when some script, however long and deep, begins with the tokens before the place and then
/// that kind; Eof, when the tokens before it are a whole script. So the refused token's own kind never is, and `for` never
/// is. The kind that an 8 names, [`Refusal::expected`], need not be: of `import` alone it is `;`, where only a name could
/// have stood. After 11 there are no kinds, and as many constructs as the limit. After any refusal but 8 to 11 there is
/// nothing: it was not a token that was wrong there, or not in reading. And after a guard's refusal there is nothing.
///
/// ```
/// use kaori_syntax::{Kind, Opening, Rooms, Sort};
///
/// let mut rooms = Rooms::for_tokens(16);
/// let why = rooms.read(b"if late { show(time platform); }", 64).unwrap_err();
/// assert_eq!(why.to_string(), "expected `,` and found <identifier>");
///
/// let expected = rooms.expected(why);
/// assert!(expected.contains(Kind::Comma) && expected.contains(Kind::RightParen));
/// assert!(!expected.contains(why.found.unwrap()));
/// assert_eq!((expected.count(), expected.lowest()), (17, Some(Kind::Plus)));
/// assert_eq!(expected.kinds().last().map(|kind| kind.to_string()).as_deref(), Some("`or`"));
/// let open = |sort, at| Opening { sort, at };
/// assert_eq!(expected.open(), [open(Sort::If, 0), open(Sort::Block, 2), open(Sort::Expression, 3)]);
/// ```
#[derive(Clone, PartialEq, Eq)]
pub struct Expected {
    kinds: u64,
    count: u32,
    lowest: u32,
    open: [Opening; MAX_OPEN],
    used: usize,
}

/// A construct that is open: one of those that the depth counts.
#[derive(Clone, Copy, PartialEq, Eq, Debug)]
pub struct Opening {
    /// What it is.
    pub sort: Sort,
    /// The number of the token that opens it. It may be the refused one: `return;` has an expression open at the `;`.
    pub at: u32,
}

/// What a construct is.
#[derive(Clone, Copy, PartialEq, Eq, Hash, Debug)]
pub enum Sort {
    /// A whole expression.
    Expression,
    /// A block.
    Block,
    /// An `if`, as a statement or as an operand.
    If,
    /// A prefix `+`, `-` or `^`; in edition 2 a `not` too.
    Sign,
}

impl Expected {
    /// The kinds, the lowest numbered first.
    pub fn kinds(&self) -> impl DoubleEndedIterator<Item = Kind> + Clone + use<> {
        let kinds = self.kinds;
        Kind::ALL.iter().copied().filter(move |&kind| kinds >> kind as u32 & 1 != 0)
    }

    /// Whether this kind could have stood there.
    pub fn contains(&self, kind: Kind) -> bool {
        self.kinds >> kind as u32 & 1 != 0
    }

    /// How many kinds could have.
    pub fn count(&self) -> u32 {
        self.count
    }

    /// The lowest numbered one.
    pub fn lowest(&self) -> Option<Kind> {
        Kind::from_u32(self.lowest).filter(|_| self.count != 0)
    }

    /// The kinds as one number: kind k is among them where its binary digit k, counted from 0 at the lowest, is 1.
    pub fn bits(&self) -> u64 {
        self.kinds
    }

    /// The constructs that were open, the outermost first; at most 64.
    pub fn open(&self) -> &[Opening] {
        self.open.get(..self.used).unwrap_or(&self.open)
    }
}

impl fmt::Debug for Expected {
    fn fmt(&self, f: &mut fmt::Formatter<'_>) -> fmt::Result {
        struct Kinds<'a>(&'a Expected);
        impl fmt::Debug for Kinds<'_> {
            fn fmt(&self, f: &mut fmt::Formatter<'_>) -> fmt::Result {
                f.debug_list().entries(self.0.kinds()).finish()
            }
        }
        f.debug_struct("Expected").field("kinds", &Kinds(self)).field("open", &self.open()).finish()
    }
}

/// What could have stood where a list of tokens was refused, and what was open there. The tokens are those that
/// [`parse`](crate::parse) was given, or that [`read`](crate::read) left in its list; the refusal has the rest. Tokens after
/// the refused one do not matter. [`Rooms::expected`](crate::Rooms::expected) is the same after a
/// [`Rooms::read`](crate::Rooms::read).
///
/// It is a pass of its own over the tokens up to the place. From some 40 tokens on it costs less than reading them did; a
/// shorter list costs about half a microsecond. Nothing is told where this list is not refused by this code at this token, in
/// the refusal's edition and within its limit.
///
/// A guard has no hint: the list is looked at as a script's, so after a guard's refusal ([`Refusal::guard`]) nothing is told.
///
/// ```
/// use kaori_syntax::{Code, Rooms, expected};
///
/// let tokens = [35, 0, 6, 41, 6, 7, 44, 7, 7]; // Return, Semicolon, Eof
/// let why = Rooms::for_tokens(3).parse(b"return;", &tokens, 64).unwrap_err();
/// assert_eq!((why.code, expected(&tokens, why).count()), (Code::Operand, 15));
/// assert_eq!(expected(&tokens[3..], why).count(), 0); // another list
/// ```
pub fn expected(tokens: &[u32], why: Refusal) -> Expected {
    let Refusal { code, at, edition: Edition(edition), limit, guard, .. } = why;
    // a room for tokens may have numbers left over at its end
    let upto = (at as usize).checked_add(1).and_then(|count| count.checked_mul(TOKEN_WIDTH));
    let read = upto.and_then(|upto| tokens.get(..upto)).unwrap_or(tokens);
    let mut told = [0; TOLD];
    // of a list that is empty nothing is told
    let read = if guard { &[] } else { read };
    let kinds = raw::expected(read, edition, limit, code as u32, at, &mut told);
    let [count, lowest, used] = [told[0], told[1], told[2]];
    let mut open = [Opening { sort: Sort::Expression, at: 0 }; MAX_OPEN];
    for (opening, &[sort, at]) in open.iter_mut().zip(told[HEAD..].as_chunks().0) {
        *opening = Opening { sort: sort_of(sort), at };
    }
    Expected { kinds, count, lowest, open, used: used as usize }
}

/// There are no others.
fn sort_of(number: u32) -> Sort {
    match number {
        1 => Sort::Block,
        2 => Sort::If,
        3 => Sort::Sign,
        _ => Sort::Expression,
    }
}
