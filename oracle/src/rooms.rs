//! Request L6: rooms of any size. How they stand in a frame of the program `batch`, with built-in names (request L10) or
//! without, with an edition (request L14) or without, as a script or as a guard (request L9), and what its answer is. The answer comes from the rows that the derived
//! parser records: the first that does not fit is refusal 4, at its token.
use std::fmt::Write;

use kaori::recorder::{Asked, Row};

use crate::{
    answer::answer,
    builtins::Builtins,
    case::{Case, Token, number},
    could::Could,
    door, judge,
    rows::{NO_KIND, NODE_WIDTH, Outcome, Refusal},
    terms::{Call, FIRST, Terms},
    told::Question,
};

/// How many numbers the rooms have: of nodes, links, symbols and scratch.
pub type Rooms = [u32; 4];

/// The places of the symbol and the scratch room. The others, too, have the places of their rows in `Row`.
pub const SYMBOLS: usize = Row::Symbol as usize;
pub const SCRATCH: usize = 3;
/// The numbers of a row.
pub const WIDTHS: Rooms = [NODE_WIDTH as u32, 3, 2, 3];
/// The largest rooms that `batch` lends, where a frame asks for larger ones: 512 rows, and what can be left over.
pub const LARGEST: Rooms = [5_129, 1_538, 1_025, 1_538];
/// What each number of the rooms is before the call.
pub const BEFORE: u32 = 7;

const MARK: [u8; 2] = *b"RM";
const NAMES_MARK: [u8; 2] = *b"RN";
const EDITION_MARK: [u8; 2] = *b"RO";
const GUARD_MARK: [u8; 2] = *b"RQ";
/// The largest built-in text that a frame may have, and the most numbers of rows: 66 rows and a number left over.
pub const MAX_NAMES_TEXT: usize = 8_192;
pub const MAX_NAMES_NUMBERS: usize = 133;
/// The bytes before the built-in text: the mark and seven numbers, and with an edition eight.
pub const NAMES_HEAD: usize = 30;
pub const EDITION_HEAD: usize = 34;
const BAD: &[u8] = b"bad input\n";

/// An input of `rows`, with a limit and rooms of its own, and perhaps with built-in names. One with an edition has names, and a
/// guard has an edition.
#[derive(Clone, PartialEq, Eq, Debug)]
pub struct Lent {
    pub is_guard: bool,
    pub edition: Option<u32>,
    pub names: Option<Builtins>,
    pub limit: u32,
    pub rooms: Rooms,
    pub input: Vec<u8>,
}

impl Lent {
    pub fn encode(&self) -> Vec<u8> {
        let bytes = |numbers: &[u32]| -> Vec<u8> { numbers.iter().flat_map(|n| n.to_le_bytes()).collect() };
        let head = [&bytes(&[self.limit])[..], &bytes(&self.rooms)].concat();
        let Some(Builtins { text, rows }) = &self.names else {
            return [&MARK, &head[..], &self.input].concat();
        };
        let sizes = bytes(&[text.len() as u32, rows.len() as u32]);
        let mark = match self.edition {
            Some(edition) => {
                let mark = if self.is_guard { GUARD_MARK } else { EDITION_MARK };
                [&mark[..], &bytes(&[edition])].concat()
            }
            None => NAMES_MARK.into(),
        };
        [&mark, &head[..], &sizes, text, &bytes(rows), &self.input].concat()
    }

    pub fn call(&self) -> Call {
        let terms = Terms { edition: self.edition.unwrap_or(FIRST), limit: self.limit };
        Call { is_guard: self.is_guard, terms }
    }

    /// None: the frame is an input of `rows` and nothing else, or its built-in names are broken, which is a bad input too.
    pub fn decode(frame: &[u8]) -> Option<Lent> {
        let marks = [MARK, NAMES_MARK, EDITION_MARK, GUARD_MARK];
        let mark = marks.into_iter().find(|mark| frame.starts_with(mark))?;
        let mut rest = &frame[mark.len()..];
        let is_guard = mark == GUARD_MARK;
        let edition = if is_guard || mark == EDITION_MARK { Some(number(&mut rest)?) } else { None };
        let limit = number(&mut rest)?;
        let mut rooms = LARGEST;
        for room in &mut rooms {
            *room = number(&mut rest)?.min(*room);
        }
        let names = if mark == MARK { None } else { Some(names(&mut rest)?) };
        Some(Lent { is_guard, edition, names, limit, rooms, input: rest.to_vec() })
    }
}

fn names(rest: &mut &[u8]) -> Option<Builtins> {
    let [size, count] = [number(rest)? as usize, number(rest)? as usize];
    if size > MAX_NAMES_TEXT || count > MAX_NAMES_NUMBERS {
        return None;
    }
    let text = rest.split_off(..size)?.to_vec();
    let rows = (0..count).map(|_| number(rest)).collect::<Option<_>>()?;
    Some(Builtins { text, rows })
}

/// What is known of a case, its built-in names, which entry is called, an edition and a limit, whatever is lent.
pub struct Known {
    names: Builtins,
    case: Case,
    call: Call,
    /// What comes of it in rooms that are large enough.
    outcome: Outcome,
    /// The rows that its reading asks for, in order; none if the door refuses it.
    asked: Vec<Asked>,
}

impl Known {
    pub fn of(case: Case, call: impl Into<Call>) -> Known {
        Known::beside(Builtins::default(), case, call)
    }

    pub fn beside(names: Builtins, case: Case, call: impl Into<Call>) -> Known {
        let call = call.into();
        if let Some(refusal) = door::refusal_with(&names, &case, call, ample(&names, &case)) {
            return Known { names, case, call, outcome: Outcome::Refused(refusal), asked: Vec::new() };
        }
        let outcome = judge::read(&names, &case, call).outcome;
        let asked = judge::record(&names, &case, call, &outcome);
        Known { names, case, call, outcome, asked }
    }

    /// The case in these rooms, as `batch` gets it without built-in names and without an edition.
    pub fn lent(&self, rooms: Rooms) -> Lent {
        let limit = self.call.terms.limit;
        Lent { is_guard: false, edition: None, names: None, limit, rooms, input: self.case.encode() }
    }

    /// The case in these rooms, with its built-in names and its edition, as a guard if it is one.
    pub fn lent_all(&self, rooms: Rooms) -> Lent {
        let Call { is_guard, terms } = self.call;
        let (edition, names) = (Some(terms.edition), Some(self.names.clone()));
        Lent { is_guard, edition, names, ..self.lent(rooms) }
    }

    pub fn outcome(&self) -> &Outcome {
        &self.outcome
    }

    pub fn asked(&self) -> &[Asked] {
        &self.asked
    }

    /// What the rows of the built-in names take.
    pub fn built_in(&self) -> u32 {
        built_in(&self.names)
    }

    /// The smallest rooms that the first so many rows fit, behind those of the built-in names, with a scratch row for each
    /// token.
    pub fn fitting(&self, rows: usize) -> Rooms {
        let mut rooms = [0, 0, self.built_in(), self.ample()[SCRATCH]];
        for asked in &self.asked[..rows] {
            rooms[asked.row as usize] += WIDTHS[asked.row as usize];
        }
        rooms
    }

    /// Rooms with a row for each token, and for each built-in name.
    pub fn ample(&self) -> Rooms {
        ample(&self.names, &self.case)
    }

    /// The first row that does not fit, where those of the built-in names do.
    pub fn lacking(&self, rooms: Rooms) -> Option<Asked> {
        let mut left = rooms;
        left[SYMBOLS] -= self.built_in();
        self.asked.iter().copied().find(|asked| {
            let room = asked.row as usize;
            let fits = WIDTHS[room] <= left[room];
            left[room] = left[room].saturating_sub(WIDTHS[room]);
            !fits
        })
    }

    /// The door's refusal in these rooms.
    pub fn turned_away(&self, rooms: Rooms) -> Option<Refusal> {
        door::refusal_with(&self.names, &self.case, self.call, rooms)
    }

    /// What comes of it in these rooms, if the door lets it in.
    pub fn comes(&self, rooms: Rooms) -> Outcome {
        let Some(Asked { at, .. }) = self.lacking(rooms) else { return self.outcome.clone() };
        let Token { start, end, .. } = self.case.tokens[at];
        let at = at as u32;
        Outcome::Refused(Refusal { code: 4, at, start, end, expected: NO_KIND, message: String::new() })
    }

    /// The call's eight numbers, and each room as the call leaves it; none where they are as they were.
    pub fn leaves(&self, rooms: Rooms) -> ([u32; 8], Option<[Vec<u32>; 4]>) {
        if let Some(refusal) = self.turned_away(rooms) {
            return (refused(&refusal), None);
        }
        let mut left = rooms.map(|size| vec![0; size as usize]);
        match self.comes(rooms) {
            Outcome::Refused(refusal) => (refused(&refusal), Some(left)),
            Outcome::Accepted(rows) => {
                let [nodes, links, symbols] = [rows.nodes.len(), rows.links.len(), rows.symbols.len()];
                let written =
                    [rows.nodes.as_flattened(), rows.links.as_flattened(), rows.symbols.as_flattened()];
                for (room, written) in left.iter_mut().zip(written) {
                    room[..written.len()].copy_from_slice(written);
                }
                ([0, nodes as u32, links as u32, symbols as u32, 0, 0, 0, NO_KIND], Some(left))
            }
        }
    }

    /// The call's eight numbers in a line, and then each room in a line, as the call leaves it.
    pub fn answer(&self, rooms: Rooms) -> String {
        let (numbers, left) = self.leaves(rooms);
        lines(numbers, left.unwrap_or_else(|| rooms.map(|size| vec![BEFORE; size as usize])))
    }
}

fn built_in(names: &Builtins) -> u32 {
    WIDTHS[SYMBOLS] * names.places().len() as u32
}

fn ample(names: &Builtins, case: &Case) -> Rooms {
    let mut rooms = WIDTHS.map(|width| width * case.tokens.len() as u32);
    rooms[SYMBOLS] = LARGEST[SYMBOLS].min(rooms[SYMBOLS] + built_in(names)); // no script has a name in each token
    rooms
}

fn refused(refusal: &Refusal) -> [u32; 8] {
    let Refusal { code, at, start, end, expected, .. } = *refusal;
    [code, 0, 0, 0, at, start, end, expected]
}

/// Each number after a blank.
fn lines(numbers: [u32; 8], rooms: [Vec<u32>; 4]) -> String {
    let mut text = String::new();
    for line in [numbers.as_slice()].into_iter().chain(rooms.iter().map(Vec::as_slice)) {
        line.iter().for_each(|number| write!(text, " {number}").unwrap());
        text.push('\n');
    }
    text
}

/// What `batch` must answer. It keeps what it knows of the last case, since the next is often the same in other rooms, and which
/// kinds could stand where (request L2).
#[derive(Default)]
pub struct Judge {
    last: Option<(Vec<u8>, Known)>,
    could: Could,
}

impl Judge {
    pub fn answer(&mut self, frame: &[u8]) -> Vec<u8> {
        if let Some(question) = Question::decode(frame) {
            return question.answer(&mut self.could);
        }
        let Some(lent) = Lent::decode(frame) else { return answer(frame) };
        self.known(&lent).map_or(BAD.into(), |known| known.answer(lent.rooms).into_bytes())
    }

    /// None: a broken input.
    pub fn known(&mut self, lent: &Lent) -> Option<&Known> {
        let (input, call) = (&lent.input, lent.call());
        let names = lent.names.clone().unwrap_or_default();
        let is_last =
            |(last, known): &(Vec<u8>, Known)| last == input && known.call == call && known.names == names;
        if !self.last.as_ref().is_some_and(is_last) {
            let known = |case| (input.clone(), Known::beside(names, case, call));
            self.last = Case::decode(input).map(known);
        }
        self.last.as_ref().map(|(_, known)| known)
    }
}
