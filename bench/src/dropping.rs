//! A script of which every second statement is dropped, beside reading it whole and reading what is kept.
use kaori_syntax::{Held, Kind, Node, Rooms, RowsRefusal, Span, Tree};

use crate::{LIMIT, inputs::Input};

pub struct Half<'a> {
    input: &'a Input,
    pub choice: Vec<bool>,
    /// The tokens of the statements that are kept, and the Eof.
    pub shorter: Vec<u32>,
    held: Held,
    /// Rooms with the rows of the whole script, and rooms of the same sizes to drop in.
    whole: Rooms,
    rooms: Rooms,
}

impl<'a> Half<'a> {
    pub fn of(input: &'a Input) -> Half<'a> {
        let mut whole = input.rooms();
        let tree = input.parse(&mut whole, &input.tokens, LIMIT).expect("a script that is read");
        let (held, ends) = (tree.held(), ends(&tree));
        let choice: Vec<bool> = (0..ends.len()).map(|statement| statement % 2 == 1).collect();
        let starts = std::iter::once(0).chain(ends.iter().copied());
        let kept = starts.zip(&ends).zip(&choice).filter(|&(_, &kept)| kept);
        let mut shorter: Vec<u32> =
            kept.flat_map(|((from, &upto), _)| &input.tokens[3 * from..3 * upto]).copied().collect();
        shorter.extend(&input.tokens[input.tokens.len() - 3..]);
        whole.scratch.resize(held.scratch().max(whole.scratch.len()), 0);
        Half { input, choice, shorter, held, rooms: whole.clone(), whole }
    }

    /// Reads the whole list, or what is kept of it.
    pub fn read(&mut self, short: bool) -> bool {
        let tokens = if short { &self.shorter } else { &self.input.tokens };
        self.input.parse(&mut self.rooms, tokens, LIMIT).is_ok()
    }

    /// Puts the rows of the whole script where they are dropped.
    pub fn again(&mut self) {
        self.rooms.nodes.copy_from_slice(&self.whole.nodes);
        self.rooms.links.copy_from_slice(&self.whole.links);
        self.rooms.symbols.copy_from_slice(&self.whole.symbols);
    }

    pub fn drop(&mut self) -> Result<Tree<'_>, RowsRefusal> {
        self.rooms.keep(self.held, &self.choice)
    }

    /// What is left are the rows of what is kept.
    pub fn agree(&mut self) {
        let (input, shorter, mut rooms) = (self.input, self.shorter.clone(), self.input.rooms());
        let plain = input.parse(&mut rooms, &shorter, LIMIT).expect("a script that is read");
        self.again();
        let left = self.drop().expect("statements that are dropped");
        assert_eq!(left.node_rows(), plain.node_rows(), "{}: node rows", input.name);
        assert_eq!(left.link_rows(), plain.link_rows(), "{}: link rows", input.name);
        assert_eq!(left.symbol_rows(), plain.symbol_rows(), "{}: symbol rows", input.name);
    }
}

/// Where each statement ends in the list of tokens: behind its `;`, if one comes before the next statement, and else behind what
/// it covers.
fn ends(tree: &Tree) -> Vec<usize> {
    let Some(Node::Block { statements, .. }) = tree.root().map(|row| row.node) else { return vec![] };
    let tokens: Vec<_> = tree.tokens().iter().collect();
    let covers: Vec<Span> = statements.iter().filter_map(|row| tree.cover(row)).collect();
    let end = |(number, cover): (usize, &Span)| {
        let behind = tokens.partition_point(|token| token.span.start < cover.end);
        let next = covers.get(number + 1).map_or(u32::MAX, |next| next.start);
        let between = tokens[behind..].iter().take_while(|token| token.span.start < next);
        let semicolon = between.map(|token| token.kind).position(|kind| kind == Kind::Semicolon);
        behind + semicolon.map_or(0, |place| place + 1)
    };
    covers.iter().enumerate().map(end).collect()
}
