//! A script's rows without some of its statements.
use crate::{Builtins, Edition, Lent, RowsRefusal, Tree, raw};

/// What has to be known of the rows that stand in rooms, to drop some of their statements there. It borrows nothing, so that it
/// can be kept while the rooms are lent again: [`Tree::held`].
#[derive(Clone, Copy, PartialEq, Eq, Debug)]
pub struct Held {
    /// How many node rows are in use.
    pub nodes: u32,
    /// How many link rows.
    pub links: u32,
    /// How many symbol rows, those of built-in names counted.
    pub symbols: u32,
    /// How many of the symbols are built-in names. They are the first ones.
    pub builtins: u32,
    /// The edition that the script was read in.
    pub edition: Edition,
}

impl Held {
    /// How many numbers of scratch [`keep`] asks for: two for each node and link row, and one for each symbol.
    pub fn scratch(&self) -> usize {
        let [nodes, links, symbols] = [self.nodes, self.links, self.symbols].map(u64::from);
        usize::try_from(2 * (nodes + links) + symbols).unwrap_or(usize::MAX)
    }
}

/// Keeps those of a script's statements that are chosen, and drops the others: the rows of what is kept are packed to the front of
/// the rooms, and those behind them that were in use are zeros, so that they can be lent again. `choice` has a `bool` for each of
/// the root's statements, in their order. [`Rooms::keep`](crate::Rooms::keep) is the same in rooms of the crate's own, and
/// [`Tree::keep`] packs a copy.
///
/// The tree is the one that is read from the script's tokens without those of the dropped statements and their `;`. Spans stay as
/// they are in the text, and a symbol's row is where it first stands in what is kept; built-in names keep their symbols. It has no
/// tokens, so that there is no [`Tree::cover`]; and no text and no built-in names, until it is given them by [`Tree::with_text`]
/// and [`Tree::with_builtins`]. Rows that another build wrote are packed too, and what is left of them passes
/// [`Tree::from_rows`].
///
/// Refused are, the first that applies: counts that are not those of the rooms, too little scratch ([`Held::scratch`]) and more
/// built-in names than symbols, by 15; an edition that is none, by 21; rows that break a [`Rule`](crate::Rule), as a guard's do, by
/// 22; and a choice that is longer or shorter than the script has statements, by 20. Then the three rooms are as they were.
/// `scratch` is zeros throughout after a success, a 20 and a 22, else as it was.
///
/// ```
/// use kaori_syntax::{Code, Lent, keep, read};
///
/// let text = b"a; b(a); c;";
/// let (mut list, mut nodes, mut links, mut symbols, mut scratch) = ([0; 30], [0; 60], [0; 12], [0; 6], [0; 30]);
/// let lent = Lent { nodes: &mut nodes, links: &mut links, symbols: &mut symbols, scratch: &mut scratch };
/// let held = read(text, &mut list, 64, lent)?.held();
/// assert_eq!((held.nodes, held.links, held.symbols, held.scratch()), (6, 4, 3, 23));
///
/// let lent = Lent { nodes: &mut nodes, links: &mut links, symbols: &mut symbols, scratch: &mut scratch };
/// let tree = keep(held, &[false, true, false], lent).unwrap().with_text(text); // b, a, the call, the root
/// assert_eq!([0, 1, 2].map(|symbol| tree.symbol(symbol)), [Some(&b"b"[..]), Some(b"a"), None]);
/// assert_eq!((tree.rows().count(), tree.symbol_rows()), (4, &[[3, 4], [5, 6]][..]));
/// let held = tree.held();
/// assert!(nodes[40..].iter().chain(&links[6..]).chain(&symbols[4..]).all(|&number| number == 0));
///
/// let lent = Lent { nodes: &mut nodes, links: &mut links, symbols: &mut symbols, scratch: &mut scratch };
/// assert_eq!(keep(held, &[], lent).unwrap_err().code, Code::BadChoice);
/// # Ok::<(), kaori_syntax::Refusal>(())
/// ```
pub fn keep<'a>(held: Held, choice: &[bool], rooms: Lent<'a>) -> Result<Tree<'a>, RowsRefusal> {
    let Lent { nodes, links, symbols, scratch } = rooms;
    let Held { builtins, edition, .. } = held;
    let counts = [held.nodes, held.links, held.symbols];
    let mut answer = [0; 6];
    let code = raw::drop(nodes, links, symbols, counts, builtins, edition.0, choice, scratch, &mut answer);
    let [_, node_rows, link_rows, symbol_rows, rule, row] = answer;
    if code == 0 {
        let rows = [(&*nodes, node_rows), (&*links, link_rows), (&*symbols, symbol_rows)];
        return Ok(Tree::new(Builtins::NONE, None, &[], edition, rows).with_built(builtins));
    }
    Err(RowsRefusal::new(code, rule, row))
}
