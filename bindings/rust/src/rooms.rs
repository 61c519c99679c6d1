//! Rooms of the crate's own.
use alloc::{vec, vec::Vec};

use crate::{
    Builtins, Code, Edition, Expected, Held, LINK_WIDTH, Lent, MAX_NAMES, MAX_TOKENS, NODE_WIDTH, Refusal,
    RowsRefusal, SCRATCH_WIDTH, SYMBOL_WIDTH, TOKEN_WIDTH, Tree, expected, guard_with, keep, parse,
    parse_with, read, read_guard_with, read_with,
};

/// Rooms of the crate's own, to be lent again and again.
#[derive(Clone, Debug, Default)]
pub struct Rooms {
    /// [`NODE_WIDTH`] numbers a row.
    pub nodes: Vec<u32>,
    /// [`LINK_WIDTH`] numbers a row.
    pub links: Vec<u32>,
    /// [`SYMBOL_WIDTH`] numbers a row.
    pub symbols: Vec<u32>,
    /// [`SCRATCH_WIDTH`] numbers a row.
    pub scratch: Vec<u32>,
    /// For the tokens that [`Rooms::read`] and [`Rooms::guard`] make: [`TOKEN_WIDTH`] numbers each.
    pub list: Vec<u32>,
}

impl Rooms {
    /// Rooms for every script there is, beside any built-in names: 4,096 tokens, and 64 names. In them a script is never refused
    /// by 4. They have 86,144 numbers; [`Rooms::for_tokens`] says why smaller ones may be better.
    ///
    /// ```
    /// use kaori_syntax::{MAX_NAMES, MAX_TOKENS, Rooms, SYMBOL_WIDTH};
    ///
    /// let rooms = Rooms::max();
    /// assert_eq!(rooms.symbols.len() / SYMBOL_WIDTH, MAX_TOKENS + MAX_NAMES);
    /// ```
    pub fn max() -> Rooms {
        let mut rooms = Rooms::for_tokens(MAX_TOKENS);
        rooms.symbols.resize(SYMBOL_WIDTH * (MAX_TOKENS + MAX_NAMES), 0);
        rooms
    }

    /// Rooms for all scripts of up to so many tokens, the Eof at the end counted; never more than [`MAX_TOKENS`]. A call
    /// clears what it does not use, so rooms that fit are faster than rooms for everything.
    pub fn for_tokens(tokens: usize) -> Rooms {
        Rooms::with_rows(tokens, tokens, tokens, tokens)
    }

    /// The same beside these built-in names, whose rows stand in the symbol room too.
    pub fn for_tokens_with(builtins: Builtins, tokens: usize) -> Rooms {
        let mut rooms = Rooms::for_tokens(tokens);
        rooms.symbols.resize(rooms.symbols.len() + SYMBOL_WIDTH * most_names(builtins), 0);
        rooms
    }

    /// Rooms of so many node, link and symbol rows, and for up to so many tokens; never more than [`MAX_TOKENS`], and never
    /// more than a row a token, which is always enough. What a script needs is what its tree has: as many node, link and
    /// symbol rows. A first guess: two thirds, a third and a quarter of the tokens, and four rows more in each; bindings'
    /// README has what was measured.
    pub fn with_rows(nodes: usize, links: usize, symbols: usize, tokens: usize) -> Rooms {
        let tokens = tokens.min(MAX_TOKENS);
        let room = |width: usize, rows: usize| vec![0; width * rows.min(tokens)];
        Rooms {
            nodes: room(NODE_WIDTH, nodes),
            links: room(LINK_WIDTH, links),
            symbols: room(SYMBOL_WIDTH, symbols),
            scratch: room(SCRATCH_WIDTH, tokens),
            list: room(TOKEN_WIDTH, tokens),
        }
    }

    /// Doubles the node, link and symbol rows after a refusal that a row did not fit, but to no more than a row for each token
    /// that `scratch` is for: then the script can be read again. Any other refusal is given back, and so is this one where
    /// nothing can be grown.
    pub fn grow(&mut self, why: Refusal) -> Result<(), Refusal> {
        self.grow_with(Builtins::NONE, why)
    }

    /// The same beside these built-in names: the symbol room is grown until their rows fit, and then by up to a row for each
    /// token more.
    pub fn grow_with(&mut self, builtins: Builtins, why: Refusal) -> Result<(), Refusal> {
        let mut left = Err(why);
        let names = most_names(builtins);
        if why.code == Code::SmallRoom && why.found.is_some() {
            let most = (self.scratch.len() / SCRATCH_WIDTH).min(MAX_TOKENS);
            let Rooms { nodes, links, symbols, .. } = self;
            for (room, width, most) in
                [(nodes, NODE_WIDTH, most), (links, LINK_WIDTH, most), (symbols, SYMBOL_WIDTH, most + names)]
            {
                let rows = room.len() / width;
                if rows < most {
                    room.resize(width * (2 * rows).clamp(1, most), 0);
                    left = Ok(());
                }
            }
        } else if why.code == Code::SmallRoom && self.symbols.len() < SYMBOL_WIDTH * names {
            self.symbols.resize(SYMBOL_WIDTH * names, 0);
            left = Ok(());
        }
        left
    }

    /// Reads a script's text: [`read`] in these rooms.
    pub fn read<'a>(&'a mut self, text: &'a [u8], limit: u32) -> Result<Tree<'a>, Refusal> {
        let Rooms { nodes, links, symbols, scratch, list } = self;
        read(text, list, limit, Lent { nodes, links, symbols, scratch })
    }

    /// What could have stood where [`Rooms::read`] or [`Rooms::read_with`] has just refused a text, and what was open there:
    /// [`expected`] over the tokens that it left. After a [`Rooms::parse`] call [`expected`] with the tokens that it was given.
    /// A guard has no hint: after its refusal nothing is told.
    pub fn expected(&self, why: Refusal) -> Expected {
        expected(&self.list, why)
    }

    /// Reads a script's text and tokens: [`parse`] in these rooms.
    pub fn parse<'a>(
        &'a mut self,
        text: &'a [u8],
        tokens: &'a [u32],
        limit: u32,
    ) -> Result<Tree<'a>, Refusal> {
        let Rooms { nodes, links, symbols, scratch, .. } = self;
        parse(text, tokens, limit, Lent { nodes, links, symbols, scratch })
    }

    /// Reads a script's text beside built-in names, in an edition: [`read_with`] in these rooms.
    pub fn read_with<'a>(
        &'a mut self,
        builtins: Builtins<'a>,
        text: &'a [u8],
        edition: Edition,
        limit: u32,
    ) -> Result<Tree<'a>, Refusal> {
        let Rooms { nodes, links, symbols, scratch, list } = self;
        read_with(builtins, text, list, edition, limit, Lent { nodes, links, symbols, scratch })
    }

    /// Reads a script's text and tokens beside built-in names, in an edition: [`parse_with`] in these rooms.
    pub fn parse_with<'a>(
        &'a mut self,
        builtins: Builtins<'a>,
        text: &'a [u8],
        tokens: &'a [u32],
        edition: Edition,
        limit: u32,
    ) -> Result<Tree<'a>, Refusal> {
        let Rooms { nodes, links, symbols, scratch, .. } = self;
        parse_with(builtins, text, tokens, edition, limit, Lent { nodes, links, symbols, scratch })
    }

    /// Reads a guard's text, in edition 1 and beside no built-in names: one expression, and then the Eof, with no `;`. The last
    /// row is the expression's own. [`read_guard_with`] says what is refused.
    ///
    /// ```
    /// use kaori_syntax::{Code, Rooms};
    ///
    /// let mut rooms = Rooms::for_tokens(8);
    /// let tree = rooms.guard(b"late or total > 9", 64)?;
    /// let parts = tree.children(tree.root().unwrap().number).map(|row| tree.cover(row.number).unwrap());
    /// assert!(parts.map(|span| span.of(tree.text()).unwrap()).eq([&b"late"[..], b"total > 9"]));
    /// assert_eq!(rooms.guard(b"if late", 64).unwrap_err().code, Code::Outside);
    /// # Ok::<(), kaori_syntax::Refusal>(())
    /// ```
    pub fn guard<'a>(&'a mut self, text: &'a [u8], limit: u32) -> Result<Tree<'a>, Refusal> {
        self.read_guard_with(Builtins::NONE, text, Edition::FIRST, limit)
    }

    /// Reads a guard's text beside built-in names, in an edition: [`read_guard_with`] in these rooms.
    pub fn read_guard_with<'a>(
        &'a mut self,
        builtins: Builtins<'a>,
        text: &'a [u8],
        edition: Edition,
        limit: u32,
    ) -> Result<Tree<'a>, Refusal> {
        let Rooms { nodes, links, symbols, scratch, list } = self;
        read_guard_with(builtins, text, list, edition, limit, Lent { nodes, links, symbols, scratch })
    }

    /// Reads a guard's text and tokens beside built-in names, in an edition: [`guard_with`] in these rooms.
    pub fn guard_with<'a>(
        &'a mut self,
        builtins: Builtins<'a>,
        text: &'a [u8],
        tokens: &'a [u32],
        edition: Edition,
        limit: u32,
    ) -> Result<Tree<'a>, Refusal> {
        let Rooms { nodes, links, symbols, scratch, .. } = self;
        guard_with(builtins, text, tokens, edition, limit, Lent { nodes, links, symbols, scratch })
    }

    /// Keeps those of a script's statements that are chosen, of the rows that a call has left in these rooms: [`keep`](keep()), with
    /// scratch that is made as large as it asks for. `held` is [`Tree::held`] of the tree that was read.
    ///
    /// ```
    /// use kaori_syntax::{Code, Edition, OwnedBuiltins, Rooms};
    ///
    /// let station = OwnedBuiltins::new(&["show", "advance"]);
    /// let text = b"if late { show(time); } advance(); show(line);";
    /// let mut rooms = Rooms::for_tokens_with(station.lend(), 32);
    /// let held = rooms.read_with(station.lend(), text, Edition::FIRST, 64)?.held();
    ///
    /// let tree = rooms.keep(held, &[false, true, true]).unwrap().with_text(text).with_builtins(station.lend());
    /// assert_eq!([0, 1, 2].map(|symbol| tree.symbol(symbol)), [Some(&b"show"[..]), Some(b"advance"), Some(b"line")]);
    /// assert_eq!(tree.children(tree.root().unwrap().number).count(), 2);
    ///
    /// // once more, of what is left
    /// let held = tree.held();
    /// assert_eq!(rooms.keep(held, &[true]).unwrap_err().code, Code::BadChoice);
    /// assert_eq!(rooms.keep(held, &[false, false]).unwrap().rows().count(), 1);
    /// # Ok::<(), kaori_syntax::Refusal>(())
    /// ```
    pub fn keep(&mut self, held: Held, choice: &[bool]) -> Result<Tree<'_>, RowsRefusal> {
        let Rooms { nodes, links, symbols, scratch, .. } = self;
        // counts past what there is are refused
        let within = |count: u32, room: &[u32], width: usize| count.min((room.len() / width) as u32);
        let most = Held {
            nodes: within(held.nodes, nodes, NODE_WIDTH),
            links: within(held.links, links, LINK_WIDTH),
            symbols: within(held.symbols, symbols, SYMBOL_WIDTH),
            ..held
        };
        if scratch.len() < most.scratch() {
            scratch.resize(most.scratch(), 0);
        }
        keep(held, choice, Lent { nodes, links, symbols, scratch })
    }
}

/// How many built-in names take rows: more than are allowed are refused.
fn most_names(builtins: Builtins) -> usize {
    (builtins.count() as usize).min(MAX_NAMES)
}
