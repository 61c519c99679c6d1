//! Rooms of the crate's own for a station's scripts.
use alloc::{vec, vec::Vec};

use crate::{
    ANSWER_WIDTH, Builtins, Edition, LINK_WIDTH, Lent, MAX_NAMES, MAX_SCRIPTS, MAX_TEXT, MAX_TOKENS,
    NODE_WIDTH, SCRATCH_WIDTH, SYMBOL_WIDTH, Scripts, TOKEN_WIDTH, TurnedAway, parse_scripts, read_scripts,
};

/// The most rows that a part needs: one for each token, and for symbols one more for each built-in name.
const MAX_ROWS: usize = MAX_TOKENS + MAX_NAMES;

/// Rooms of the crate's own for a station's scripts, to be lent again and again. It joins the texts that it is given, and makes
/// the cuts; what it needs for that it keeps, so that a call allocates only where the texts or the lists are longer than any
/// before.
///
/// ```
/// use kaori_syntax::{Edition, OwnedBuiltins, Station};
///
/// let names = OwnedBuiltins::new(&["show", "advance"]);
/// let mut station = Station::for_tokens_with(names.lend(), 32, 64);
/// let texts = ["if typed { advance(); }", "advance(", "show(total);"];
/// let scripts = station.read_with(names.lend(), &texts, Edition::FIRST, 64)?;
/// let symbols: Vec<_> = scripts.iter().map(|script| script.ok()?.symbol(2)).collect();
/// assert_eq!(symbols, [Some(&b"typed"[..]), None, Some(b"total")]);
/// # Ok::<(), kaori_syntax::TurnedAway>(())
/// ```
#[derive(Clone, Debug)]
pub struct Station {
    scripts: usize,
    rows: usize,
    nodes: Vec<u32>,
    links: Vec<u32>,
    symbols: Vec<u32>,
    scratch: Vec<u32>,
    answers: Vec<u32>,
    text: Vec<u8>,
    list: Vec<u32>,
    cuts: Vec<u32>,
}

impl Station {
    /// For up to so many scripts, each of up to so many tokens, the Eof at its end counted; never more than [`MAX_SCRIPTS`] and
    /// [`MAX_TOKENS`]. A call clears what a script does not use of its parts, so parts that fit are faster than parts for
    /// everything.
    pub fn for_tokens(scripts: usize, tokens: usize) -> Station {
        Station::with_rows(scripts, tokens.min(MAX_TOKENS))
    }

    /// The same beside these built-in names, whose rows stand in each part of the symbol room too.
    pub fn for_tokens_with(builtins: Builtins, scripts: usize, tokens: usize) -> Station {
        let names = (builtins.count() as usize).min(MAX_NAMES);
        Station::with_rows(scripts, tokens.min(MAX_TOKENS) + names)
    }

    /// For up to so many scripts, with so many rows in each part; never more than a part can need, which is 4,160. All four rooms
    /// have parts of as many rows, so a script that has more tokens than these is refused, by 1 where its tokens are made and
    /// else by 4. With a row for each token, and one more for each built-in name, no script is refused by 4.
    pub fn with_rows(scripts: usize, rows: usize) -> Station {
        let (scripts, rows) = (scripts.min(MAX_SCRIPTS), rows.min(MAX_ROWS));
        let room = |width: usize| vec![0; width * rows * scripts];
        Station {
            scripts,
            rows,
            nodes: room(NODE_WIDTH),
            links: room(LINK_WIDTH),
            symbols: room(SYMBOL_WIDTH),
            scratch: room(SCRATCH_WIDTH),
            answers: vec![0; ANSWER_WIDTH * scripts],
            text: Vec::new(),
            list: Vec::new(),
            cuts: Vec::new(),
        }
    }

    /// How many scripts there is room for.
    pub fn scripts(&self) -> usize {
        self.scripts
    }

    /// How many rows a part has.
    pub fn rows(&self) -> usize {
        self.rows
    }

    /// Reads the texts of up to so many scripts as there is room for, in edition 1 and beside no built-in names. Each is answered
    /// as [`read`](crate::read) answers it alone, in rooms of [`Station::rows`] rows.
    ///
    /// ```
    /// use kaori_syntax::{Station, TurnedAway};
    ///
    /// let mut station = Station::for_tokens(4, 16);
    /// assert!(station.read(&["a;", "b();"], 64)?.iter().all(|script| script.is_ok()));
    /// assert_eq!(station.read(&["a;"; 5], 64).unwrap_err(), TurnedAway::Rooms);
    /// assert_eq!(station.read::<&[u8]>(&[], 64).unwrap_err(), TurnedAway::Scripts);
    /// # Ok::<(), TurnedAway>(())
    /// ```
    pub fn read<T: AsRef<[u8]>>(&mut self, texts: &[T], limit: u32) -> Result<Scripts<'_>, TurnedAway> {
        self.read_with(Builtins::NONE, texts, Edition::FIRST, limit)
    }

    /// The same beside built-in names, in an edition: [`read_scripts`] in these rooms.
    pub fn read_with<'a, T: AsRef<[u8]>>(
        &'a mut self,
        builtins: Builtins<'a>,
        texts: &[T],
        edition: Edition,
        limit: u32,
    ) -> Result<Scripts<'a>, TurnedAway> {
        let long = TOKEN_WIDTH * self.rows.min(MAX_TOKENS);
        self.text.clear();
        self.cuts.clear();
        for text in texts.iter().take(MAX_SCRIPTS + 1) {
            self.join(text.as_ref(), long);
        }
        self.list.resize(self.list_end(), 0);
        let part = self.rows as u32;
        let Station { nodes, links, symbols, scratch, answers, text, list, cuts, .. } = self;
        let rooms = Lent { nodes, links, symbols, scratch };
        read_scripts(builtins, text, list, cuts, edition, limit, part, rooms, answers)
    }

    /// Reads up to so many scripts as there is room for, each given as its text and its tokens, in edition 1 and beside no built-in
    /// names. Each is answered as [`parse`](crate::parse) answers it alone, in rooms of [`Station::rows`] rows. A token's span is a
    /// place in its own script's text.
    ///
    /// ```
    /// use kaori_syntax::{Code, Station};
    ///
    /// let tokens = [43, 0, 1, 41, 1, 2, 44, 2, 2]; // Identifier, Semicolon, Eof
    /// let mut station = Station::for_tokens(32, 8);
    /// let scripts = station.parse(&[("a;", &tokens[..]), ("b;", &tokens), ("c;", &tokens[..6])], 64)?;
    /// let names: Vec<_> = scripts.iter().map(|script| script.map(|tree| tree.symbol(0).unwrap())).collect();
    /// assert_eq!((names[0], names[1]), (Ok(&b"a"[..]), Ok(&b"b"[..])));
    /// assert_eq!(names[2].unwrap_err().code, Code::BadEof);
    /// # Ok::<(), kaori_syntax::TurnedAway>(())
    /// ```
    pub fn parse<T: AsRef<[u8]>, L: AsRef<[u32]>>(
        &mut self,
        scripts: &[(T, L)],
        limit: u32,
    ) -> Result<Scripts<'_>, TurnedAway> {
        self.parse_with(Builtins::NONE, scripts, Edition::FIRST, limit)
    }

    /// The same beside built-in names, in an edition: [`parse_scripts`] in these rooms.
    pub fn parse_with<'a, T: AsRef<[u8]>, L: AsRef<[u32]>>(
        &'a mut self,
        builtins: Builtins<'a>,
        scripts: &[(T, L)],
        edition: Edition,
        limit: u32,
    ) -> Result<Scripts<'a>, TurnedAway> {
        self.text.clear();
        self.cuts.clear();
        self.list.clear();
        for (text, tokens) in scripts.iter().take(MAX_SCRIPTS + 1) {
            let tokens = upto(tokens.as_ref(), TOKEN_WIDTH * MAX_TOKENS);
            self.list.extend_from_slice(tokens);
            self.join(text.as_ref(), tokens.len());
        }
        let part = self.rows as u32;
        let Station { nodes, links, symbols, scratch, answers, text, list, cuts, .. } = self;
        let rooms = Lent { nodes, links, symbols, scratch };
        parse_scripts(builtins, text, list, cuts, edition, limit, part, rooms, answers)
    }

    /// Puts a text behind those before it, and cuts there, and so many numbers further on in the list.
    fn join(&mut self, text: &[u8], list: usize) {
        let list_end = self.list_end() + list;
        self.text.extend_from_slice(upto(text, MAX_TEXT));
        // 33 texts and lists that are no longer than is looked at
        self.cuts.extend([self.text.len() as u32, list_end as u32]);
    }

    /// The last cut of the list.
    fn list_end(&self) -> usize {
        self.cuts.last().map_or(0, |&end| end as usize)
    }
}

/// A text or a list up to the first that is one too many: it is refused for its length, whatever follows.
fn upto<T>(all: &[T], most: usize) -> &[T] {
    all.get(..=most).unwrap_or(all)
}

#[cfg(test)]
mod tests {
    use super::*;

    /// Where each room and buffer of a station stands, and how much it holds.
    fn places(station: &Station) -> Vec<(usize, usize)> {
        let Station { nodes, links, symbols, scratch, answers, text, list, cuts, .. } = station;
        let numbers = [nodes, links, symbols, scratch, answers, list, cuts];
        let text = (text.as_ptr() as usize, text.capacity());
        numbers.iter().map(|room| (room.as_ptr() as usize, room.capacity())).chain([text]).collect()
    }

    #[test]
    fn nothing_grows() {
        let tokens = [43, 0, 1, 41, 1, 2, 44, 2, 2];
        let mut station = Station::for_tokens(MAX_SCRIPTS, 8);
        assert!(station.read(&["show(a);"; MAX_SCRIPTS], 64).is_ok());
        let before = places(&station);
        assert!(station.parse(&[("a;", tokens); 5], 64).is_ok_and(|scripts| scripts.len() == 5));
        assert!(station.read(&["a;", "", "b c;"], 64).is_ok_and(|scripts| scripts.len() == 3));
        assert!(station.read(&["show(b);"; MAX_SCRIPTS], 64).is_ok());
        assert_eq!(places(&station), before);
    }
}
