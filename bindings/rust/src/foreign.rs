//! Rows that another build wrote.
use core::fmt;

use crate::{Builtins, Code, Edition, Rule, Tree, raw};

/// Why rows that another build wrote were not taken for a tree, or why no statements were dropped of rows.
///
/// ```
/// use kaori_syntax::{Code, Edition, Rule, Tree};
///
/// // `nil;`, whose root has a tail as well, and it is a later row
/// let nodes = [14, 0, 3, 0, 0, 0, 0, 0, 0, 1, 20, 0, 0, 0, 1, 7, 0, 0, 0, u32::MAX];
/// let why = Tree::from_rows(&nodes, &[0, 0, 0], &[], [2, 1, 0], Edition::FIRST, &mut [0; 4]).unwrap_err();
/// assert_eq!((why.code, why.rule, why.row), (Code::BadRows, Some(Rule::Earlier), 1));
/// assert_eq!(why.to_string(), "row 1 breaks rule 3: a row that is named is an earlier one");
/// ```
#[derive(Clone, Copy, PartialEq, Eq, Debug)]
pub struct RowsRefusal {
    /// [`Code::NOT_LENT`], then [`Code::BadEdition`], then [`Code::BadRows`]: 15, 21 and 22. Of [`keep`](crate::keep()) last of
    /// all [`Code::BadChoice`]: 20.
    pub code: Code,
    /// The first rule that does not hold, for code 22.
    pub rule: Option<Rule>,
    /// The first row that breaks it, itself or in its links, for code 22; else 0. Of [`Rule::Once`] it is the first that is not
    /// named once, of [`Rule::Root`] the last, or 0 where there are none, of [`Rule::Lists`] the last where links are left over.
    pub row: u32,
}

impl RowsRefusal {
    /// Of an answer of the two calls that look at rows, which have no other codes.
    pub(crate) fn new(code: u32, rule: u32, row: u32) -> RowsRefusal {
        let code = Code::from_u32(code).unwrap_or(Code::SmallAnswer);
        RowsRefusal { code, rule: Rule::from_u32(rule), row }
    }
}

impl fmt::Display for RowsRefusal {
    /// What is wrong, in words.
    fn fmt(&self, f: &mut fmt::Formatter<'_>) -> fmt::Result {
        match (self.code, self.rule) {
            (_, Some(rule)) => write!(f, "row {} breaks rule {}: {rule}", self.row, rule as u32),
            (Code::NOT_LENT, None) => f.write_str("there are not so many rows, or scratch is too small"),
            (Code::BadChoice, None) => f.write_str("the choice's length is not the statement count"),
            (Code::BadEdition, None) => f.write_str("the edition is neither 1 nor 2"),
            (code, None) => write!(f, "refusal {}", code as u32),
        }
    }
}

impl core::error::Error for RowsRefusal {}

impl fmt::Display for Rule {
    /// The rule in a few words.
    fn fmt(&self, f: &mut fmt::Formatter<'_>) -> fmt::Result {
        f.pad(match self {
            Rule::Kinds => "a kind is one of 1 to 26",
            Rule::Ranges => "operators, Booleans, symbols and lists are in range",
            Rule::Earlier => "a row that is named is an earlier one",
            Rule::Once => "every row but the last is named once",
            Rule::Root => "the last row is a block with no tail",
            Rule::Lists => "lists follow each other, and have all links",
            Rule::Absent => "a child is there, unless it may be absent",
            Rule::Unused => "unused numbers are 0",
            Rule::Parents => "the parent is the row that names this one",
        })
    }
}

impl<'a> Tree<'a> {
    /// Takes rows that another build wrote for a tree, if they keep the nine rules ([`Rule`]) in the edition that is named.
    /// `counts` says how many node, link and symbol rows are in use; `scratch` needs a number for each node row and two for each
    /// link row, so that the scratch room that a script was read in is enough for its rows.
    ///
    /// Every script's rows pass, in its edition, and a guard's do not: its last row is no block. Of rows that pass each is met
    /// once from the root, child by child, and the root is met from each, parent by parent. What has no rule, and so may be
    /// anything:
    /// - spans: [`Span::of`](crate::Span::of) is none for one that is not in a text;
    /// - symbol rows: [`Tree::symbol`] is none for one that is not in a text;
    /// - which nodes stand below which, and in which order of the text: a function's block need not be a
    ///   [`Node::Block`](crate::Node::Block);
    /// - how deep it is: up to as many as there are rows, so that a walk that calls itself may run out of stack.
    ///   [`Tree::rows`] has children before parents.
    ///
    /// Such a tree has no tokens, so that there is no [`Tree::cover`]; and no text and no built-in names, until it is given them
    /// by [`Tree::with_text`] and [`Tree::with_builtins`].
    ///
    /// After a success and after a 22 `scratch` is zeros throughout, else as it was.
    ///
    /// ```
    /// use kaori_syntax::{Code, Edition, Node, Rooms, Rule, Tree};
    ///
    /// let mut rooms = Rooms::for_tokens(16);
    /// let tree = rooms.read(b"show(-total);", 64)?; // show, total, the sign, the call, the root
    /// let (mut nodes, links, symbols) = (tree.node_rows().concat(), tree.link_rows().concat(), tree.symbol_rows().concat());
    /// let counts = [5, 2, 2];
    /// let mut scratch = [0; 9]; // 5 + 2 * 2
    ///
    /// let tree = Tree::from_rows(&nodes, &links, &symbols, counts, Edition::FIRST, &mut scratch).unwrap();
    /// assert!(matches!(tree.row(3).map(|row| row.node), Some(Node::FunctionCall { callee: 0, .. })));
    /// assert_eq!((tree.symbol(1), tree.with_text(b"show(-total);").symbol(1)), (None, Some(&b"total"[..])));
    ///
    /// nodes[24] = 3; // the sign's operand
    /// let why = Tree::from_rows(&nodes, &links, &symbols, counts, Edition::FIRST, &mut scratch).unwrap_err();
    /// assert_eq!((why.rule, why.row), (Some(Rule::Earlier), 2));
    /// let why = Tree::from_rows(&nodes, &links, &symbols, [6, 2, 2], Edition::FIRST, &mut scratch).unwrap_err();
    /// assert_eq!((why.code, why.rule), (Code::NOT_LENT, None));
    /// # Ok::<(), kaori_syntax::Refusal>(())
    /// ```
    pub fn from_rows(
        nodes: &'a [u32],
        links: &'a [u32],
        symbols: &'a [u32],
        counts: [u32; 3],
        edition: Edition,
        scratch: &mut [u32],
    ) -> Result<Tree<'a>, RowsRefusal> {
        let mut answer = [0; 3];
        let code = raw::check(nodes, links, symbols, counts, edition.0, scratch, &mut answer);
        if code == 0 {
            let [node_rows, link_rows, symbol_rows] = counts;
            let rows = [(nodes, node_rows), (links, link_rows), (symbols, symbol_rows)];
            return Ok(Tree::new(Builtins::NONE, None, &[], edition, rows));
        }
        let [_, rule, row] = answer;
        Err(RowsRefusal::new(code, rule, row))
    }
}
