//! A station's scripts in one call, over slices of the caller's own.
use core::{fmt, iter::FusedIterator};

use crate::{
    ANSWER_WIDTH, Builtins, CUT_WIDTH, Code, Edition, LINK_WIDTH, Lent, MAX_SCRIPTS, NODE_WIDTH, Refusal,
    SCRATCH_WIDTH, SYMBOL_WIDTH, Tree, made, raw, tree,
};

/// Why a call with a station's scripts was turned away, by 19: before any of them was looked at, and with nothing changed. A
/// script's own refusal is a [`Refusal`], and stops no other.
///
/// ```
/// use kaori_syntax::{Code, Station, TurnedAway};
///
/// let mut station = Station::for_tokens(2, 16);
/// let why = station.read(&["a;"; 33], 64).unwrap_err();
/// assert_eq!((why, why.code()), (TurnedAway::Scripts, Code::TurnedAway));
/// assert_eq!(why.to_string(), "no script, or more than 32");
/// assert_eq!(station.read(&["a;"; 3], 64).unwrap_err(), TurnedAway::Rooms);
/// assert_eq!(station.read(&["a;"; 2], 64)?.len(), 2);
/// # Ok::<(), TurnedAway>(())
/// ```
#[derive(Clone, Copy, PartialEq, Eq, Hash, Debug)]
pub enum TurnedAway {
    /// There is no script, or there are more than [`MAX_SCRIPTS`].
    Scripts,
    /// There is an odd number of cuts, or one goes back or past the end of the text or the list.
    Cuts,
    /// A room is smaller than so many parts, or there is too little room for the answers.
    Rooms,
}

impl TurnedAway {
    /// [`Code::TurnedAway`], which is 19.
    pub const fn code(self) -> Code {
        Code::TurnedAway
    }

    /// Which of them it was, once it was 19.
    fn of(cuts: &[u32], text: usize, list: usize) -> TurnedAway {
        let (pairs, odd) = cuts.as_chunks::<CUT_WIDTH>();
        let within =
            |[text_end, list_end]: [u32; CUT_WIDTH]| text_end as usize <= text && list_end as usize <= list;
        let forward = |ends: &[[u32; CUT_WIDTH]]| match ends {
            [one, next] => one[0] <= next[0] && one[1] <= next[1],
            _ => true,
        };
        if !(1..=MAX_SCRIPTS).contains(&pairs.len()) {
            TurnedAway::Scripts
        } else if odd.is_empty() && pairs.iter().copied().all(within) && pairs.windows(2).all(forward) {
            TurnedAway::Rooms
        } else {
            TurnedAway::Cuts
        }
    }
}

impl fmt::Display for TurnedAway {
    /// What is wrong, in words.
    fn fmt(&self, f: &mut fmt::Formatter<'_>) -> fmt::Result {
        f.pad(match self {
            TurnedAway::Scripts => "no script, or more than 32",
            TurnedAway::Cuts => "the cuts are odd, go back or pass an end",
            TurnedAway::Rooms => "too little room for so many scripts",
        })
    }
}

impl core::error::Error for TurnedAway {}

/// A station's scripts after a call: for each a tree over its parts of the rooms, or its refusal, as the call on this script
/// alone gives it. Spans are places in the script's own text.
///
/// ```
/// use kaori_syntax::{Kind, Station, expected, place};
///
/// let mut station = Station::for_tokens(32, 64);
/// let scripts = station.read(&["show(a);", "a;\nb c;"], 64)?;
/// for (number, script) in scripts.iter().enumerate() {
///     match script {
///         Ok(tree) => assert_eq!(tree.symbol(0), Some(&b"show"[..])),
///         Err(why) => {
///             // the text and the tokens of a refused script tell more of it
///             let (text, tokens) = (scripts.text(number).unwrap(), scripts.tokens(number).unwrap());
///             assert_eq!(place(text, why.span.start as usize).map(|place| (place.line, place.column)), Some((2, 3)));
///             assert!(expected(tokens, why).contains(Kind::Semicolon));
///         }
///     }
/// }
/// assert!(scripts.get(1).is_some_and(|script| script.is_err()) && scripts.get(2).is_none());
/// # Ok::<(), kaori_syntax::TurnedAway>(())
/// ```
#[derive(Clone, Copy)]
pub struct Scripts<'a> {
    builtins: Builtins<'a>,
    text: &'a [u8],
    list: &'a [u32],
    /// Whether the lists were made of the texts.
    from_text: bool,
    cuts: &'a [[u32; CUT_WIDTH]],
    edition: Edition,
    limit: u32,
    part: usize,
    /// Nodes, links, symbols and scratch.
    rooms: [&'a [u32]; 4],
    answers: &'a [[u32; ANSWER_WIDTH]],
}

impl<'a> Scripts<'a> {
    /// How many scripts there are, 1 to 32.
    #[allow(clippy::len_without_is_empty)]
    pub fn len(&self) -> usize {
        self.cuts.len()
    }

    /// A script's tree or refusal, by its number from 0. None: there are not so many.
    pub fn get(&self, number: usize) -> Option<Result<Tree<'a>, Refusal>> {
        let (text, list) = (self.text(number)?, self.tokens(number)?);
        let answer = *self.answers.get(number)?;
        let tokens = if self.from_text { made(list, answer[0]) } else { list };
        let [nodes, links, symbols, scratch] = self.rooms;
        let part = |room: &'a [u32], width: usize| {
            let long = width * self.part;
            room.get(long * number..long * (number + 1)).unwrap_or_default()
        };
        let parts = [
            part(nodes, NODE_WIDTH),
            part(links, LINK_WIDTH),
            part(symbols, SYMBOL_WIDTH),
            part(scratch, SCRATCH_WIDTH),
        ];
        Some(tree(answer, (self.edition, self.limit, false), self.builtins, text, tokens, parts))
    }

    /// A script's own part of the joined text. None: there are not so many.
    pub fn text(&self, number: usize) -> Option<&'a [u8]> {
        let [(from, _), (upto, _)] = self.ends(number)?;
        self.text.get(from..upto)
    }

    /// A script's own part of the joined list: its tokens, and where they were made of its text, zeros after the Eof. None:
    /// there are not so many.
    pub fn tokens(&self, number: usize) -> Option<&'a [u32]> {
        let [(_, from), (_, upto)] = self.ends(number)?;
        self.list.get(from..upto)
    }

    /// The scripts in their order, from either end.
    pub fn iter(&self) -> EachScript<'a> {
        EachScript { scripts: *self, next: 0, end: self.len() }
    }

    /// Where a script starts and ends, in the text and in the list.
    fn ends(&self, number: usize) -> Option<[(usize, usize); 2]> {
        let end = |number: usize| self.cuts.get(number).map(|&[text, list]| (text as usize, list as usize));
        let start = match number.checked_sub(1) {
            Some(before) => end(before)?,
            None => (0, 0),
        };
        Some([start, end(number)?])
    }
}

impl fmt::Debug for Scripts<'_> {
    fn fmt(&self, f: &mut fmt::Formatter<'_>) -> fmt::Result {
        f.debug_list().entries(self.iter()).finish()
    }
}

impl<'a> IntoIterator for Scripts<'a> {
    type Item = Result<Tree<'a>, Refusal>;
    type IntoIter = EachScript<'a>;

    fn into_iter(self) -> EachScript<'a> {
        self.iter()
    }
}

impl<'a> IntoIterator for &Scripts<'a> {
    type Item = Result<Tree<'a>, Refusal>;
    type IntoIter = EachScript<'a>;

    fn into_iter(self) -> EachScript<'a> {
        self.iter()
    }
}

/// The trees or refusals of a station's scripts in their order, from either end.
#[derive(Clone, Debug)]
pub struct EachScript<'a> {
    scripts: Scripts<'a>,
    next: usize,
    end: usize,
}

impl<'a> Iterator for EachScript<'a> {
    type Item = Result<Tree<'a>, Refusal>;

    fn next(&mut self) -> Option<Self::Item> {
        let script = self.scripts.get(self.next).filter(|_| self.next < self.end)?;
        self.next += 1;
        Some(script)
    }

    fn size_hint(&self) -> (usize, Option<usize>) {
        let left = self.end - self.next;
        (left, Some(left))
    }
}

impl DoubleEndedIterator for EachScript<'_> {
    fn next_back(&mut self) -> Option<Self::Item> {
        let last = self.end.checked_sub(1).filter(|&last| self.next <= last)?;
        let script = self.scripts.get(last)?;
        self.end = last;
        Some(script)
    }
}

impl ExactSizeIterator for EachScript<'_> {}
impl FusedIterator for EachScript<'_> {}

/// Reads up to [`MAX_SCRIPTS`] scripts that are given as one joined text and one joined list of tokens, beside built-in names
/// and in an edition that are one for all: each as [`parse_with`](crate::parse_with) reads it alone, whatever the others are.
///
/// `cuts` has [`CUT_WIDTH`] numbers for each script: where it ends in the text, and where in the list's numbers. The first
/// starts at 0, each other where the one before it ends. A token's span counts within its script. Each room is cut into parts
/// of `part` rows, one for each script; `answers` needs [`ANSWER_WIDTH`] numbers for each. What is past the parts stays.
/// [`Station`](crate::Station) does all this.
///
/// ```
/// use kaori_syntax::{Builtins, Edition, Lent, TurnedAway, parse_scripts};
///
/// // `a;` and `b;`, three tokens each
/// let (text, tokens) = (b"a;b;", [43, 0, 1, 41, 1, 2, 44, 2, 2].repeat(2));
/// let (mut nodes, mut links, mut symbols, mut scratch, mut answers) = ([0; 60], [0; 18], [0; 12], [0; 18], [0; 16]);
/// let mut parse = |cuts: &[u32], part| {
///     let lent = Lent { nodes: &mut nodes, links: &mut links, symbols: &mut symbols, scratch: &mut scratch };
///     let (names, edition) = (Builtins::NONE, Edition::FIRST);
///     let scripts = parse_scripts(names, text, &tokens, cuts, edition, 64, part, lent, &mut answers)?;
///     Ok(scripts.iter().filter_map(|script| script.ok()?.symbol(0)?.first().copied()).collect::<Vec<_>>())
/// };
/// assert_eq!(parse(&[2, 9, 4, 18], 3), Ok(vec![b'a', b'b']));
/// assert_eq!(parse(&[2, 9, 4, 18], 4), Err(TurnedAway::Rooms));
/// assert_eq!(parse(&[2, 9, 5, 18], 3), Err(TurnedAway::Cuts));
/// ```
#[allow(clippy::too_many_arguments)]
pub fn parse_scripts<'a>(
    builtins: Builtins<'a>,
    text: &'a [u8],
    tokens: &'a [u32],
    cuts: &'a [u32],
    Edition(edition): Edition,
    limit: u32,
    part: u32,
    rooms: Lent<'a>,
    answers: &'a mut [u32],
) -> Result<Scripts<'a>, TurnedAway> {
    let Lent { nodes, links, symbols, scratch } = rooms;
    let Builtins { text: names, rows } = builtins;
    let code = raw::parse_scripts(
        names, rows, text, tokens, cuts, edition, limit, part, nodes, links, symbols, scratch, answers,
    );
    if code != 0 {
        return Err(TurnedAway::of(cuts, text.len(), tokens.len()));
    }
    Ok(Scripts {
        builtins,
        text,
        list: tokens,
        from_text: false,
        cuts: cuts.as_chunks().0,
        edition: Edition(edition),
        limit,
        part: part as usize,
        rooms: [nodes, links, symbols, scratch],
        answers: answers.as_chunks().0,
    })
}

/// Reads up to [`MAX_SCRIPTS`] scripts that are given as one joined text: as [`parse_scripts`], but each script's tokens are
/// made, in its part of `list`, and each is read as [`read_with`](crate::read_with) reads it alone. So the cuts give each
/// script its room for tokens, [`TOKEN_WIDTH`](crate::TOKEN_WIDTH) numbers for each and the Eof.
///
/// ```
/// use kaori_syntax::{Builtins, Code, Edition, Lent, read_scripts};
///
/// let (mut list, mut nodes, mut links, mut symbols, mut scratch, mut answers) =
///     ([0; 18], [0; 60], [0; 18], [0; 12], [0; 18], [0; 16]);
/// let lent = Lent { nodes: &mut nodes, links: &mut links, symbols: &mut symbols, scratch: &mut scratch };
/// let (names, cuts, edition) = (Builtins::NONE, [3, 9, 5, 18], Edition::FIRST);
/// let scripts = read_scripts(names, b"a b;c", &mut list, &cuts, edition, 64, 3, lent, &mut answers)?;
/// // `a b` and `;c`: nothing runs on from the one to the other
/// let [one, other] = [0, 1].map(|number| scripts.get(number).unwrap().unwrap_err());
/// assert_eq!((one.code, one.at, other.code, other.at), (Code::Required, 1, Code::Operand, 0));
/// # Ok::<(), kaori_syntax::TurnedAway>(())
/// ```
#[allow(clippy::too_many_arguments)]
pub fn read_scripts<'a>(
    builtins: Builtins<'a>,
    text: &'a [u8],
    list: &'a mut [u32],
    cuts: &'a [u32],
    Edition(edition): Edition,
    limit: u32,
    part: u32,
    rooms: Lent<'a>,
    answers: &'a mut [u32],
) -> Result<Scripts<'a>, TurnedAway> {
    let Lent { nodes, links, symbols, scratch } = rooms;
    let Builtins { text: names, rows } = builtins;
    let code = raw::read_scripts(
        names, rows, text, list, cuts, edition, limit, part, nodes, links, symbols, scratch, answers,
    );
    if code != 0 {
        return Err(TurnedAway::of(cuts, text.len(), list.len()));
    }
    Ok(Scripts {
        builtins,
        text,
        list,
        from_text: true,
        cuts: cuts.as_chunks().0,
        edition: Edition(edition),
        limit,
        part: part as usize,
        rooms: [nodes, links, symbols, scratch],
        answers: answers.as_chunks().0,
    })
}
