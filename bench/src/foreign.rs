//! Rows that are checked as if another build had written them: those of scripts, and rows that are made to make it slow.
use kaori_syntax::{Edition, RowsRefusal, Tree};

use crate::inputs::{self, Input};

const ABSENT: u32 = u32::MAX;

/// The kinds of rows that are made here.
const NIL: u32 = 14;
const MAP: u32 = 17;
const BLOCK: u32 = 20;
const IMPORT: u32 = 26;

pub struct Rows {
    pub name: &'static str,
    nodes: Vec<u32>,
    links: Vec<u32>,
    symbols: Vec<u32>,
    scratch: Vec<u32>,
}

impl Rows {
    fn new(name: &'static str, nodes: Vec<u32>, links: Vec<u32>, symbols: Vec<u32>) -> Rows {
        let scratch = vec![0; nodes.len() / 10 + 2 * (links.len() / 3)];
        Rows { name, nodes, links, symbols, scratch }
    }

    fn read(input: &Input) -> Rows {
        let mut rooms = input.rooms();
        let tree = input.parse(&mut rooms, &input.tokens, crate::LIMIT).expect("a script that is read");
        let [nodes, links, symbols] = [
            tree.node_rows().as_flattened(),
            tree.link_rows().as_flattened(),
            tree.symbol_rows().as_flattened(),
        ];
        Rows::new(input.name, nodes.to_vec(), links.to_vec(), symbols.to_vec())
    }

    /// A `nil`, and then rows whose lists are these, over links that are all alike.
    fn listed(name: &'static str, links: u32, link: [u32; 3], rows: impl Iterator<Item = [u32; 10]>) -> Rows {
        let nil = [NIL, 0, 0, 0, 0, 0, 0, 0, 0, 0];
        Rows::new(
            name,
            [nil].into_iter().chain(rows).flatten().collect(),
            link.repeat(links as usize),
            vec![0, 0],
        )
    }

    pub fn counts(&self) -> [u32; 3] {
        [self.nodes.len() / 10, self.links.len() / 3, self.symbols.len() / 2].map(|n| n as u32)
    }

    pub fn check(&mut self) -> Result<Tree<'_>, RowsRefusal> {
        let counts = self.counts();
        Tree::from_rows(&self.nodes, &self.links, &self.symbols, counts, Edition::FIRST, &mut self.scratch)
    }
}

fn block(first: u32, count: u32) -> [u32; 10] {
    [BLOCK, 0, 0, first, count, ABSENT, 0, 0, 0, 0]
}

pub fn all() -> Vec<Rows> {
    let (n, large) = (4095, 65535);
    // links alone, then in twos, in fours: long ways over marks
    let halves = |n: u32| (0..n.ilog2()).flat_map(move |k| (0..n >> k).map(move |i| block(i << k, 1 << k)));
    let mut rows: Vec<Rows> = inputs::all().iter().filter(|input| input.typical).map(Rows::read).collect();
    rows.extend([
        // every row has all links
        Rows::listed("one list for all", n, [0; 3], (0..n).map(|_| block(0, n))),
        // each starts one further on, or one before
        Rows::listed("each one further on", n, [0; 3], (0..n).map(|i| block(i, n - i))),
        Rows::listed("each one before", n, [0; 3], (0..n).map(|i| block(n - 1 - i, i + 1))),
        Rows::listed("by halves", n, [0; 3], halves(n)),
        // keys with absent values, and names
        Rows::listed("one map for all", n, [0, ABSENT, 0], (0..n).map(|_| [MAP, 0, 0, 0, n, 0, 0, 0, 0, 0])),
        Rows::listed("one import for all", n, [0; 3], (0..n).map(|_| [IMPORT, 0, 0, 0, n, 0, n, 0, 0, 0])),
        // sixteen times as many
        Rows::listed("one list for all, 16", large, [0; 3], (0..large).map(|_| block(0, large))),
        Rows::listed("by halves, 16", large, [0; 3], halves(large)),
    ]);
    rows
}
