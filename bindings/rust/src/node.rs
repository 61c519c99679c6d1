//! The rows of a script or a guard as nodes.
use core::{fmt, iter::FusedIterator, slice};

use crate::{
    Builtins, Edition, Held, Kind, LINK_WIDTH, NODE_WIDTH, SYMBOL_WIDTH, TOKEN_WIDTH, cover, name, raw,
    upto_eof,
};
#[cfg(feature = "alloc")]
use crate::{Rooms, RowsRefusal};

const ABSENT: u32 = u32::MAX;

/// A script or a guard that was read: its rows, in the rooms that were lent, with its text and its tokens. A copy of it is seven
/// slices and two numbers. Its last row is the [`root`](Tree::root), which encloses all others: a script's block, or a guard's expression.
///
/// Or rows that another build wrote and that passed a check ([`Tree::from_rows`]), or those that were left when statements were
/// dropped ([`keep`](crate::keep())): these have no tokens, and a text and built-in names only if they are given, or if
/// [`Tree::keep`] has taken them over.
#[derive(Clone, Copy, Debug)]
pub struct Tree<'a> {
    builtins: Builtins<'a>,
    text: Option<&'a [u8]>,
    /// How many symbols are built-in names, also where these are not given.
    built: u32,
    edition: Edition,
    /// Three numbers each; after the Eof there may be zeros. None at all for rows that were not read.
    list: &'a [u32],
    nodes: &'a [[u32; NODE_WIDTH]],
    links: &'a [[u32; LINK_WIDTH]],
    symbols: &'a [[u32; SYMBOL_WIDTH]],
}

/// A place in the text: from `start` up to `end`.
#[derive(Clone, Copy, PartialEq, Eq, Debug, Default)]
pub struct Span {
    /// The offset of its first byte.
    pub start: u32,
    /// The offset behind its last byte.
    pub end: u32,
}

impl Span {
    /// The part of a text that stands there. None: it is not in the text.
    ///
    /// ```
    /// use kaori_syntax::Span;
    ///
    /// assert_eq!(Span { start: 2, end: 4 }.of(b"a+10;"), Some(&b"10"[..]));
    /// assert_eq!(Span { start: 2, end: 6 }.of(b"a+10;"), None);
    /// ```
    pub fn of<'a>(&self, text: &'a [u8]) -> Option<&'a [u8]> {
        text.get(self.start as usize..self.end as usize)
    }
}

/// A row of the tree.
#[derive(Clone, Copy, PartialEq, Eq, Debug)]
pub struct Row<'a> {
    /// By which other rows name it.
    pub number: u32,
    /// Its place in the text; 0, 0 for a script's root. A row made of children may start later than its text, as in ast.rs: the
    /// sum in `f(x) + 1` starts at `(`. [`Tree::cover`] has the whole. Of a row that another build wrote it is any two numbers.
    pub span: Span,
    /// The row that has it as a child, which is a later one; none for the root.
    pub parent: Option<u32>,
    /// What it is.
    pub node: Node<'a>,
}

/// A name where it stands in the text, and its symbol.
#[derive(Clone, Copy, PartialEq, Eq, Debug)]
pub struct Name {
    /// For [`Tree::symbol`].
    pub symbol: u32,
    /// Where it stands.
    pub span: Span,
}

/// The operators of [`Node::Binary`], in the order of ops.rs.
#[allow(missing_docs)]
#[derive(Clone, Copy, PartialEq, Eq, Debug)]
pub enum BinaryOp {
    Add,
    Subtract,
    Multiply,
    Divide,
    Modulo,
    Equal,
    NotEqual,
    Greater,
    GreaterEqual,
    Less,
    LessEqual,
}

/// The operators of [`Node::Unary`]: `-` and `^`.
#[allow(missing_docs)]
#[derive(Clone, Copy, PartialEq, Eq, Debug)]
pub enum UnaryOp {
    Negate,
    Deref,
}

/// A node, as ast.rs's `Node` has it. A child is the number of its row, which is an earlier one; a number has no value
/// here, its text is its row's span. Of rows that another build wrote a child may be any node.
#[allow(missing_docs)]
#[derive(Clone, Copy, PartialEq, Eq, Debug)]
pub enum Node<'a> {
    Binary {
        operator: BinaryOp,
        left: u32,
        right: u32,
    },
    LogicalAnd {
        left: u32,
        right: u32,
    },
    LogicalOr {
        left: u32,
        right: u32,
    },
    LogicalNot(u32),
    Unary {
        operator: UnaryOp,
        operand: u32,
    },
    Assign {
        left: u32,
        right: u32,
    },
    Variable {
        left: Name,
        right: u32,
    },
    Constant {
        left: Name,
        right: u32,
    },
    Ref {
        left: Name,
        right: u32,
    },
    Identifier(Name),
    /// Its symbol: what stands between the quotes.
    String(u32),
    Number,
    Boolean(bool),
    Nil,
    FunctionCall {
        callee: u32,
        arguments: Nodes<'a>,
    },
    PropertyAccess {
        object: u32,
        property: Name,
    },
    Map {
        entries: Entries<'a>,
    },
    Function {
        name: Name,
        parameters: Names<'a>,
        block: u32,
    },
    Lambda {
        parameters: Names<'a>,
        block: u32,
    },
    Block {
        statements: Nodes<'a>,
        tail: Option<u32>,
    },
    If {
        condition: u32,
        then_branch: u32,
        else_branch: Option<u32>,
    },
    WhileLoop {
        condition: u32,
        block: u32,
    },
    /// None in edition 2 alone, before `;` or `}`.
    Return(Option<u32>),
    Break,
    Continue,
    Import {
        path: Names<'a>,
        bindings: Names<'a>,
    },
}

/// A list of nodes, by the numbers of their rows.
///
/// ```
/// use kaori_syntax::{Node, Rooms};
///
/// let mut rooms = Rooms::for_tokens(16);
/// let tree = rooms.read(b"show(a, b);", 64)?; // show, a, b, the call, the root
/// let Some(Node::FunctionCall { arguments, .. }) = tree.row(3).map(|row| row.node) else { panic!() };
/// for number in arguments {
///     assert!(matches!(tree.row(number).map(|row| row.node), Some(Node::Identifier(_))));
/// }
/// assert!(arguments.iter().rev().eq([2, 1]));
/// assert_eq!((arguments.len(), arguments.get(0)), (2, Some(1)));
/// # Ok::<(), kaori_syntax::Refusal>(())
/// ```
#[derive(Clone, Copy, PartialEq, Eq, Debug)]
pub struct Nodes<'a>(&'a [[u32; LINK_WIDTH]]);

/// A list of names.
#[derive(Clone, Copy, PartialEq, Eq, Debug)]
pub struct Names<'a>(&'a [[u32; LINK_WIDTH]]);

/// The entries of a map: a key's row, and a value's where there is one.
#[derive(Clone, Copy, PartialEq, Eq, Debug)]
pub struct Entries<'a>(&'a [[u32; LINK_WIDTH]]);

/// The tokens of a script or a guard, the Eof last.
#[derive(Clone, Copy, PartialEq, Eq, Debug)]
pub struct Tokens<'a>(&'a [[u32; TOKEN_WIDTH]]);

/// A token of a script or a guard that was read.
#[derive(Clone, Copy, PartialEq, Eq, Debug)]
pub struct Token {
    /// What it is.
    pub kind: Kind,
    /// Its place in the text.
    pub span: Span,
}

/// The items of a list in their order, from either end. Links and tokens have three numbers each.
#[derive(Clone)]
pub struct Items<'a, T> {
    rows: slice::Iter<'a, [u32; LINK_WIDTH]>,
    item: fn(&[u32; LINK_WIDTH]) -> T,
}

impl<T> Iterator for Items<'_, T> {
    type Item = T;

    fn next(&mut self) -> Option<T> {
        self.rows.next().map(self.item)
    }

    fn size_hint(&self) -> (usize, Option<usize>) {
        self.rows.size_hint()
    }

    fn nth(&mut self, n: usize) -> Option<T> {
        self.rows.nth(n).map(self.item)
    }
}

impl<T> DoubleEndedIterator for Items<'_, T> {
    fn next_back(&mut self) -> Option<T> {
        self.rows.next_back().map(self.item)
    }
}

impl<T> ExactSizeIterator for Items<'_, T> {}
impl<T> FusedIterator for Items<'_, T> {}

impl<T: fmt::Debug> fmt::Debug for Items<'_, T> {
    fn fmt(&self, f: &mut fmt::Formatter<'_>) -> fmt::Result {
        f.debug_list().entries(self.rows.clone().map(self.item)).finish()
    }
}

/// What the lists share.
macro_rules! list {
    ($list:ident, $item:ty, $from:expr) => {
        impl<'a> $list<'a> {
            /// How many items there are.
            pub fn len(&self) -> usize {
                self.0.len()
            }

            /// Whether there are none.
            pub fn is_empty(&self) -> bool {
                self.0.is_empty()
            }

            /// The item at a place, from 0. None: there are not so many.
            pub fn get(&self, place: usize) -> Option<$item> {
                self.0.get(place).map($from)
            }

            /// The items in their order.
            pub fn iter(&self) -> Items<'a, $item> {
                Items { rows: self.0.iter(), item: $from }
            }
        }

        impl<'a> IntoIterator for $list<'a> {
            type Item = $item;
            type IntoIter = Items<'a, $item>;

            fn into_iter(self) -> Items<'a, $item> {
                self.iter()
            }
        }

        impl<'a> IntoIterator for &$list<'a> {
            type Item = $item;
            type IntoIter = Items<'a, $item>;

            fn into_iter(self) -> Items<'a, $item> {
                self.iter()
            }
        }
    };
}

list!(Nodes, u32, |&[row, ..]| row);
list!(Names, Name, |&[symbol, start, end]| Name { symbol, span: Span { start, end } });
list!(Entries, (u32, Option<u32>), |&[key, value, _]| (key, option(value)));
// a script that was read has no other kinds
list!(Tokens, Token, |&[kind, start, end]| Token {
    kind: Kind::from_u32(kind).unwrap_or(Kind::Eof),
    span: Span { start, end },
});

/// The rows of a tree in their order: children before parents, the root last.
#[derive(Clone, Debug)]
pub struct Rows<'a> {
    tree: Tree<'a>,
    next: u32,
    end: u32,
}

impl<'a> Iterator for Rows<'a> {
    type Item = Row<'a>;

    fn next(&mut self) -> Option<Row<'a>> {
        let row = self.tree.row(self.next).filter(|row| row.number < self.end)?;
        self.next += 1;
        Some(row)
    }

    fn size_hint(&self) -> (usize, Option<usize>) {
        (0, Some(self.end.saturating_sub(self.next) as usize))
    }
}

impl<'a> DoubleEndedIterator for Rows<'a> {
    fn next_back(&mut self) -> Option<Row<'a>> {
        let row = self.tree.row(self.end.checked_sub(1)?).filter(|row| self.next <= row.number)?;
        self.end -= 1;
        Some(row)
    }
}

/// What stands below a row, in the order of the text, from either end.
#[derive(Clone, Debug)]
pub struct Children<'a> {
    tree: Tree<'a>,
    of: u32,
    /// The places that are left; some of them have no child.
    next: usize,
    end: usize,
}

impl<'a> Children<'a> {
    fn at(&self, place: usize) -> Option<Row<'a>> {
        let Tree { nodes, links, .. } = self.tree;
        let child = raw::child(nodes.as_flattened(), links.as_flattened(), self.of, place);
        self.tree.row(child)
    }
}

impl<'a> Iterator for Children<'a> {
    type Item = Row<'a>;

    fn next(&mut self) -> Option<Row<'a>> {
        while self.next < self.end {
            self.next += 1;
            if let Some(row) = self.at(self.next - 1) {
                return Some(row);
            }
        }
        None
    }

    fn size_hint(&self) -> (usize, Option<usize>) {
        (0, Some(self.end - self.next))
    }
}

impl<'a> DoubleEndedIterator for Children<'a> {
    fn next_back(&mut self) -> Option<Row<'a>> {
        while self.next < self.end {
            self.end -= 1;
            if let Some(row) = self.at(self.end) {
                return Some(row);
            }
        }
        None
    }
}

impl FusedIterator for Children<'_> {}

/// A row, its parent, that one's parent, and so on: what encloses a row, the root last.
#[derive(Clone, Debug)]
pub struct Outward<'a> {
    tree: Tree<'a>,
    next: Option<u32>,
}

impl<'a> Iterator for Outward<'a> {
    type Item = Row<'a>;

    fn next(&mut self) -> Option<Row<'a>> {
        let row = self.tree.row(self.next.take()?)?;
        // whatever the rows hold, numbers rise, so that there is an end
        self.next = row.parent.filter(|&parent| row.number < parent);
        Some(row)
    }

    fn size_hint(&self) -> (usize, Option<usize>) {
        (0, Some(self.next.map_or(0, |next| self.tree.nodes.len().saturating_sub(next as usize))))
    }
}

fn option(number: u32) -> Option<u32> {
    (number != ABSENT).then_some(number)
}

fn used<const N: usize>((room, count): (&[u32], u32)) -> &[[u32; N]] {
    let rows = room.as_chunks().0;
    rows.get(..count as usize).unwrap_or(rows)
}

impl<'a> Tree<'a> {
    pub(crate) fn new(
        builtins: Builtins<'a>,
        text: Option<&'a [u8]>,
        list: &'a [u32],
        edition: Edition,
        [nodes, links, symbols]: [(&'a [u32], u32); 3],
    ) -> Tree<'a> {
        let (nodes, links, symbols) = (used(nodes), used(links), used(symbols));
        Tree { builtins, text, built: builtins.count(), edition, list, nodes, links, symbols }
    }

    /// The same rows, of whose symbols so many are built-in names that are not given.
    pub(crate) fn with_built(self, built: u32) -> Tree<'a> {
        Tree { built, ..self }
    }

    /// What has to be known of the rows to drop some of their statements, once the tree is let go:
    /// [`Rooms::keep`](crate::Rooms::keep), or [`keep`](crate::keep()) over slices. Rows that another build wrote have built-in names
    /// only if they are given ([`Tree::with_builtins`]).
    ///
    /// ```
    /// use kaori_syntax::{Edition, Rooms};
    ///
    /// let held = Rooms::for_tokens(8).read(b"a; b;", 64)?.held();
    /// assert_eq!((held.nodes, held.links, held.symbols), (3, 2, 2));
    /// assert_eq!((held.builtins, held.edition), (0, Edition::FIRST));
    /// # Ok::<(), kaori_syntax::Refusal>(())
    /// ```
    pub fn held(&self) -> Held {
        // no room has more rows than its count
        let [nodes, links, symbols] =
            [self.nodes.len(), self.links.len(), self.symbols.len()].map(|count| count as u32);
        Held { nodes, links, symbols, builtins: self.built, edition: self.edition }
    }

    /// Keeps those of the script's statements that are chosen, in other rooms, and this tree stays as it is: its rows are copied
    /// there, and packed as by [`Rooms::keep`](crate::Rooms::keep). What is left has this tree's text and built-in names, where it
    /// has them. There are no tokens, so that there is no [`Tree::cover`].
    ///
    /// The node, link and symbol rooms and the scratch are made as large as this tree's rows ask for, and never smaller; each of
    /// the three has the rows that are kept, and then zeros. Refused are more built-in names than there are symbols, where they
    /// were given, by 15; a guard, by 22; and a choice that is longer or shorter than the script has statements, by 20. Then each
    /// of the three has all rows of this tree.
    ///
    /// ```
    /// use kaori_syntax::{Code, Rooms};
    ///
    /// let text = b"show(early); show(late); advance();";
    /// let (mut rooms, mut others) = (Rooms::for_tokens(16), Rooms::default());
    /// let tree = rooms.read(text, 64)?;
    /// assert_eq!(tree.keep(&[true], &mut others).unwrap_err().code, Code::BadChoice);
    ///
    /// let left = tree.keep(&[false, true, true], &mut others).unwrap();
    /// assert_eq!([0, 1, 2].map(|symbol| left.symbol(symbol)), [Some(&b"show"[..]), Some(b"late"), Some(b"advance")]);
    /// assert_eq!((left.rows().count(), tree.rows().count(), tree.symbol(1)), (6, 9, Some(&b"early"[..])));
    ///
    /// // both rooms are lent to what is left: once it is let go the first are free, and it is taken up again where it stands
    /// let held = left.held();
    /// rooms.read(b"show(next);", 64)?;
    /// let left = others.keep(held, &[true, true]).unwrap().with_text(text);
    /// assert_eq!((left.rows().count(), left.symbol(1)), (6, Some(&b"late"[..])));
    /// # Ok::<(), kaori_syntax::Refusal>(())
    /// ```
    #[cfg(feature = "alloc")]
    pub fn keep(&self, choice: &[bool], rooms: &'a mut Rooms) -> Result<Tree<'a>, RowsRefusal> {
        let Rooms { nodes, links, symbols, .. } = &mut *rooms;
        let rows = [self.nodes.as_flattened(), self.links.as_flattened(), self.symbols.as_flattened()];
        for (room, rows) in [nodes, links, symbols].into_iter().zip(rows) {
            let size = room.len().max(rows.len());
            room.clear();
            room.extend_from_slice(rows);
            room.resize(size, 0);
        }
        let left = rooms.keep(self.held(), choice)?;
        Ok(Tree { builtins: self.builtins, text: self.text, ..left })
    }

    /// The node rows as numbers: kind, start, end, six more, and the parent's row, as bindings/c/kaori.h has them.
    pub fn node_rows(&self) -> &'a [[u32; NODE_WIDTH]] {
        self.nodes
    }

    /// The link rows as numbers.
    pub fn link_rows(&self) -> &'a [[u32; LINK_WIDTH]] {
        self.links
    }

    /// The symbol rows as numbers: those of the built-in names, which are places in their text, and then where each other
    /// symbol first stands in the script's.
    pub fn symbol_rows(&self) -> &'a [[u32; SYMBOL_WIDTH]] {
        self.symbols
    }

    /// All rows, the root last.
    pub fn rows(&self) -> Rows<'a> {
        Rows { tree: *self, next: 0, end: self.nodes.len() as u32 }
    }

    /// The tokens, the Eof last. There are none for rows that another build wrote, or that are left of others.
    ///
    /// ```
    /// use kaori_syntax::{Kind, Rooms};
    ///
    /// let mut rooms = Rooms::for_tokens(16);
    /// let tree = rooms.read(b"not a;", 64)?;
    /// let kinds: Vec<_> = tree.tokens().iter().map(|token| token.kind).collect();
    /// assert_eq!(kinds, [Kind::Not, Kind::Identifier, Kind::Semicolon, Kind::Eof]);
    /// # Ok::<(), kaori_syntax::Refusal>(())
    /// ```
    pub fn tokens(&self) -> Tokens<'a> {
        Tokens(upto_eof(self.list))
    }

    /// The text. It is empty for rows that another build wrote, or that are left of others, until they are given one; only
    /// [`Tree::keep`] takes over that of the tree.
    pub fn text(&self) -> &'a [u8] {
        self.text.unwrap_or_default()
    }

    /// The same rows over this text. It is for rows that another build wrote, or that are left of others, which come without: then
    /// [`Tree::symbol`] has the names that stand in it. Nothing is asked of the text; there are no bytes for a place that is not in
    /// it.
    ///
    /// ```
    /// use kaori_syntax::{Edition, Node, Span, Tree};
    ///
    /// // a string, and its symbol's place; the text may have it, or not
    /// let nodes = [11, 0, 5, 0, 0, 0, 0, 0, 0, 1, 20, 0, 0, 0, 1, u32::MAX, 0, 0, 0, u32::MAX];
    /// let tree = Tree::from_rows(&nodes, &[0, 0, 0], &[1, 4], [2, 1, 1], Edition::FIRST, &mut [0; 4]).unwrap();
    /// assert_eq!((tree.text(), tree.symbol(0)), (&b""[..], None));
    /// assert_eq!(tree.with_text(b"\"abc\";").symbol(0), Some(&b"abc"[..]));
    /// assert_eq!(tree.with_text(b"abc").symbol(0), None);
    /// ```
    pub fn with_text(self, text: &'a [u8]) -> Tree<'a> {
        Tree { text: Some(text), ..self }
    }

    /// The same rows beside these built-in names, which then name the first symbols, also where there is no text. The rows of
    /// these symbols are places in the names' text, so that it has to be the one that the other build had.
    ///
    /// ```
    /// use kaori_syntax::{Edition, OwnedBuiltins, Rooms, Tree};
    ///
    /// let station = OwnedBuiltins::new(&["show", "print"]);
    /// let mut rooms = Rooms::for_tokens_with(station.lend(), 8);
    /// let read = rooms.read_with(station.lend(), b"print(a);", Edition::FIRST, 64)?;
    /// let [nodes, links, symbols] = [read.node_rows().concat(), read.link_rows().concat(), read.symbol_rows().concat()];
    ///
    /// let tree = Tree::from_rows(&nodes, &links, &symbols, [4, 2, 3], Edition::FIRST, &mut [0; 8]).unwrap();
    /// let tree = tree.with_builtins(station.lend());
    /// assert_eq!([0, 1, 2].map(|symbol| tree.symbol(symbol)), [Some(&b"show"[..]), Some(b"print"), None]);
    /// # Ok::<(), kaori_syntax::Refusal>(())
    /// ```
    pub fn with_builtins(self, builtins: Builtins<'a>) -> Tree<'a> {
        Tree { builtins, built: builtins.count(), ..self }
    }

    /// What stands below a row, in the order of the text, whatever the row is. Nothing, if there are not so many rows.
    ///
    /// ```
    /// use kaori_syntax::Rooms;
    ///
    /// let mut rooms = Rooms::for_tokens(16);
    /// let tree = rooms.read(b"#{a: b, c};", 64)?; // a, b, c, the map, the root
    /// let numbers = |of| tree.children(of).map(|row| row.number).collect::<Vec<_>>();
    /// assert_eq!((numbers(4), numbers(3), numbers(2)), (vec![3], vec![0, 1, 2], vec![]));
    /// assert_eq!(tree.children(3).next_back().map(|row| row.number), Some(2));
    /// # Ok::<(), kaori_syntax::Refusal>(())
    /// ```
    pub fn children(&self, number: u32) -> Children<'a> {
        let end = raw::children(self.nodes.as_flattened(), number);
        Children { tree: *self, of: number, next: 0, end }
    }

    /// The whole text that a row covers: from the leftmost start to the rightmost end of the row and of all that stands below
    /// it, with the counterparts of parentheses that are alone in that. So it is balanced, and parentheses around the row itself
    /// are not in it. A script's root covers the script from its start on. None: there are not so many rows, or they were written
    /// by another build or are left of others, so that there are no tokens.
    ///
    /// It is one pass over what stands below the row and one over the tokens.
    ///
    /// ```
    /// use kaori_syntax::{Node, Rooms};
    ///
    /// let text = b"not (f(x) + 1) and b;";
    /// let mut rooms = Rooms::for_tokens(16);
    /// let tree = rooms.read(text, 64)?;
    /// let whole: Vec<_> = tree.rows().filter_map(|row| tree.cover(row.number)?.of(text)).collect();
    /// let words: Vec<_> = whole.iter().map(|part| std::str::from_utf8(part).unwrap()).collect();
    /// assert_eq!(
    ///     words,
    ///     ["f", "x", "f(x)", "1", "f(x) + 1", "b", "(f(x) + 1) and b", "not (f(x) + 1) and b", "not (f(x) + 1) and b"]
    /// );
    /// # Ok::<(), kaori_syntax::Refusal>(())
    /// ```
    pub fn cover(&self, number: u32) -> Option<Span> {
        let rows = self.nodes.get(..=number as usize)?;
        // what was read has an Eof at least; only there stands all that is below a row right before it
        let tokens = Some(upto_eof(self.list)).filter(|tokens| !tokens.is_empty())?;
        Some(cover::balanced(tokens, cover::reach(rows)))
    }

    /// The row of this number and what encloses it, from the inside out: the row itself, its parent, and so on to the root.
    /// Nothing, if there are not so many rows.
    ///
    /// ```
    /// use kaori_syntax::{Node, Rooms};
    ///
    /// let mut rooms = Rooms::for_tokens(16);
    /// let tree = rooms.read(b"if not typed { advance(); }", 64)?;
    /// // `typed` is row 0; it stands in the `not`, which stands in the `if`, which stands in the script
    /// let mut outward = tree.outward(0).map(|row| row.node);
    /// assert!(matches!(outward.next(), Some(Node::Identifier(_))));
    /// assert!(matches!(outward.next(), Some(Node::LogicalNot(0))));
    /// assert!(matches!(outward.next(), Some(Node::If { .. })));
    /// assert!(matches!(outward.next(), Some(Node::Block { .. })));
    /// assert!(outward.next().is_none());
    ///
    /// assert_eq!(tree.root().map(|row| row.parent), Some(None));
    /// assert_eq!(tree.outward(100).count(), 0);
    /// # Ok::<(), kaori_syntax::Refusal>(())
    /// ```
    pub fn outward(&self, number: u32) -> Outward<'a> {
        Outward { tree: *self, next: Some(number) }
    }

    /// The last row, which alone has no parent: the block of the script's statements; of a guard, which has no such block, the
    /// expression's own.
    ///
    /// ```
    /// use kaori_syntax::{Node, Rooms};
    ///
    /// let mut rooms = Rooms::for_tokens(8);
    /// assert!(matches!(rooms.read(b"a.b;", 64)?.root().map(|row| row.node), Some(Node::Block { .. })));
    /// assert!(matches!(rooms.guard(b"a.b", 64)?.root().map(|row| row.node), Some(Node::PropertyAccess { .. })));
    /// # Ok::<(), kaori_syntax::Refusal>(())
    /// ```
    pub fn root(&self) -> Option<Row<'a>> {
        self.row(self.nodes.len().checked_sub(1)? as u32)
    }

    /// The bytes of a symbol: a built-in name, a name, or what stands between a string's quotes. None: there are not so many; or,
    /// of rows that another build wrote or that are left of others, the symbol's place is not in its text, or there is no text.
    pub fn symbol(&self, symbol: u32) -> Option<&'a [u8]> {
        if (self.builtins.count()..self.built).contains(&symbol) {
            return None;
        }
        let text = if symbol < self.builtins.count() { self.text() } else { self.text? };
        name(self.builtins, text, self.symbols.as_flattened(), self.symbols.len() as u32, symbol)
    }

    /// The row of this number. None: there are not so many.
    pub fn row(&self, number: u32) -> Option<Row<'a>> {
        let &[kind, start, end, a, b, c, d, e, f, parent] = self.nodes.get(number as usize)?;
        let name = Name { symbol: a, span: Span { start: b, end: c } };
        let node = match kind {
            1 => Node::Binary { operator: binary(a)?, left: b, right: c },
            2 => Node::LogicalAnd { left: a, right: b },
            3 => Node::LogicalOr { left: a, right: b },
            4 => Node::LogicalNot(a),
            5 => Node::Unary { operator: unary(a)?, operand: b },
            6 => Node::Assign { left: a, right: b },
            7 => Node::Variable { left: name, right: d },
            8 => Node::Constant { left: name, right: d },
            9 => Node::Ref { left: name, right: d },
            10 => Node::Identifier(name),
            11 => Node::String(a),
            12 => Node::Number,
            13 => Node::Boolean(a != 0),
            14 => Node::Nil,
            15 => Node::FunctionCall { callee: a, arguments: Nodes(self.list(b, c)?) },
            16 => Node::PropertyAccess {
                object: a,
                property: Name { symbol: b, span: Span { start: c, end: d } },
            },
            17 => Node::Map { entries: Entries(self.list(a, b)?) },
            18 => Node::Function { name, parameters: Names(self.list(d, e)?), block: f },
            19 => Node::Lambda { parameters: Names(self.list(a, b)?), block: c },
            20 => Node::Block { statements: Nodes(self.list(a, b)?), tail: option(c) },
            21 => Node::If { condition: a, then_branch: b, else_branch: option(c) },
            22 => Node::WhileLoop { condition: a, block: b },
            23 => Node::Return(option(a)),
            24 => Node::Break,
            25 => Node::Continue,
            26 => Node::Import { path: Names(self.list(a, b)?), bindings: Names(self.list(c, d)?) },
            _ => return None,
        };
        Some(Row { number, span: Span { start, end }, parent: option(parent), node })
    }

    fn list(&self, first: u32, count: u32) -> Option<&'a [[u32; LINK_WIDTH]]> {
        let first = first as usize;
        self.links.get(first..first.checked_add(count as usize)?)
    }
}

fn binary(number: u32) -> Option<BinaryOp> {
    use BinaryOp::*;
    let all =
        [Add, Subtract, Multiply, Divide, Modulo, Equal, NotEqual, Greater, GreaterEqual, Less, LessEqual];
    all.get(number as usize).copied()
}

fn unary(number: u32) -> Option<UnaryOp> {
    [UnaryOp::Negate, UnaryOp::Deref].get(number as usize).copied()
}

#[cfg(test)]
mod tests {
    use super::*;

    /// The numbers of three rows of these kinds and parents, from one outward.
    fn outward(kinds: [u32; 3], parents: [u32; 3], from: u32) -> Vec<u32> {
        let row = |i: usize| [kinds[i], 0, 0, 0, 0, 0, 0, 0, 0, parents[i]];
        let nodes = [row(0), row(1), row(2), [14; NODE_WIDTH]].concat(); // the room has a row more
        let rows = [(&nodes[..], 3), (&[], 0), (&[], 0)];
        let tree = Tree::new(Builtins::NONE, None, &[], Edition::FIRST, rows);
        tree.outward(from).map(|row| row.number).collect()
    }

    #[test]
    fn any_parents() {
        const NUMBERS: [u32; 7] = [0, 1, 2, 3, 4, ABSENT - 1, ABSENT];
        for turn in 0..343 {
            let parents = [turn / 49, turn / 7 % 7, turn % 7].map(|i| NUMBERS[i]);
            for from in NUMBERS {
                let rows = outward([14; 3], parents, from);
                assert_eq!(rows.first().copied(), (from < 3).then_some(from));
                assert!(rows.is_sorted_by(|one, next| one < next && parents[*one as usize] == *next));
                // nothing more that could be next
                assert!(rows.last().is_none_or(|&last| !(last + 1..3).contains(&parents[last as usize])));
            }
        }
    }

    #[test]
    fn rows_of_no_kind() {
        assert_eq!(outward([14, 0, 14], [1, 2, ABSENT], 0), [0]);
        assert_eq!(outward([14, 14, 27], [2, 2, ABSENT], 0), [0]);
        assert_eq!(outward([27, 14, 14], [1, 2, ABSENT], 0), [0; 0]);
        assert_eq!(outward([0, 14, 14], [1, 2, ABSENT], 1), [1, 2]);
    }
}
