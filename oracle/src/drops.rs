//! Request L12: rows without some of the root's statements, as they are asked for and as they are left. Written from document 02's words.
//! What is left of an accepted script is the reading of its list without the tokens of the dropped statements; what is left of any rows
//! that the check takes is said by `packed`.
use std::{
    collections::{BTreeMap, BTreeSet},
    ops::Range,
};

use kaori::recorder::Row;

use crate::{
    builtins::Builtins,
    case::{Case, number},
    kinds::{RIGHT_PAREN, SEMICOLON},
    rooms::{Known, Rooms},
    rows::{NODE_WIDTH, Outcome, PARENT, Rows},
    terms::Terms,
    texts::encoded,
    verdicts::{AFTER_SPAN, Field, LARGEST, RowSet, fields},
};

/// The most numbers of a choice that the program `drops` takes. The rooms are those of `verdicts`.
pub const MOST_CHOSEN: usize = 440;
/// What each number of scratch is before the call.
const BEFORE: u32 = 7;
/// The root's list: its first link and its count.
const FIRST_LINK: usize = 3;
const LINK_COUNT: usize = 4;
/// The numbers of an answer before the rooms.
pub const NUMBERS: usize = 6;

/// A call: rows as they are lent, and a number for each of the root's statements that is 0 where it is dropped.
#[derive(Clone, PartialEq, Eq, Debug)]
pub struct Dropping {
    /// Its scratch is of this call's own size.
    pub set: RowSet,
    /// How many of the symbols are built-in names.
    pub builtins: u32,
    pub choice: Vec<u8>,
}

/// What a call answers and leaves.
#[derive(Clone, PartialEq, Eq, Debug)]
pub struct Left {
    /// Code, node rows, link rows, symbol rows; the rule and the row of a 22.
    pub answer: [u32; NUMBERS],
    /// Nodes, links, symbols and scratch.
    pub rooms: [Vec<u32>; 4],
}

impl Left {
    pub fn encode(&self) -> Vec<u8> {
        encoded(&[&self.answer[..], &self.rooms.concat()].concat())
    }
}

/// The first thing that differs.
pub fn difference(right: &Left, given: &Left) -> Option<String> {
    let names = ["answer", "nodes", "links", "symbols", "scratch"];
    let lists = |left: &Left| [&[left.answer.to_vec()][..], &left.rooms].concat();
    for ((name, right), given) in names.iter().zip(lists(right)).zip(lists(given)) {
        if right.len() != given.len() {
            return Some(format!("{name}: {} numbers, and not {}", given.len(), right.len()));
        }
        if let Some(place) = (0..right.len()).find(|place| right[*place] != given[*place]) {
            return Some(format!("number {place} of {name}: {}, and not {}", given[place], right[place]));
        }
    }
    None
}

/// What scratch needs: 'two numbers for each node and link row and one for each symbol'.
pub fn needed([nodes, links, symbols]: [u32; 3]) -> u64 {
    2 * u64::from(nodes) + 2 * u64::from(links) + u64::from(symbols)
}

impl Dropping {
    /// Rows in rooms that they fill, with just as much scratch as they need.
    pub fn of(edition: u32, rows: &Rows, builtins: u32, choice: &[u8]) -> Dropping {
        let mut set = RowSet::of(edition, rows);
        set.scratch = needed(set.counts) as u32;
        Dropping { set, builtins, choice: choice.into() }
    }

    pub fn encode(&self) -> Vec<u8> {
        let RowSet { edition, counts, rooms, scratch } = &self.set;
        let [nodes, links, symbols] = rooms;
        let sizes = [nodes.len(), links.len(), symbols.len(), *scratch as usize, self.choice.len()];
        let sizes = sizes.map(|size| size as u32);
        let head = [&[*edition][..], counts, &[self.builtins], &sizes].concat();
        let mut bytes = encoded(&[&head, &nodes[..], links, symbols].concat());
        bytes.extend(&self.choice);
        bytes
    }

    /// None: a frame that does not end with its choice. A size that is too large is taken as the largest.
    pub fn decode(frame: &[u8]) -> Option<Dropping> {
        let mut rest = frame;
        let mut next = || number(&mut rest);
        let edition = next()?;
        let counts = [next()?, next()?, next()?];
        let builtins = next()?;
        let [nodes, links, symbols, scratch] = LARGEST;
        let mut size = |most: u32| next().map(|size| size.min(most));
        let [nodes, links, symbols, scratch] = [size(nodes)?, size(links)?, size(symbols)?, size(scratch)?];
        let chosen = size(MOST_CHOSEN as u32)? as usize;
        let mut room = |size| (0..size).map(|_| next()).collect::<Option<Vec<_>>>();
        let rooms = [room(nodes)?, room(links)?, room(symbols)?];
        let set = RowSet { edition, counts, rooms, scratch };
        (rest.len() == chosen).then(|| Dropping { set, builtins, choice: rest.into() })
    }

    /// Whether the program takes it as it is.
    pub fn is_taken(&self) -> bool {
        Dropping::decode(&self.encode()).as_ref() == Some(self)
    }

    /// An answer of the right length.
    pub fn taken(&self, answer: &[u8]) -> Option<Left> {
        let mut rest = answer;
        let mut room = |size: usize| (0..size).map(|_| number(&mut rest)).collect::<Option<Vec<_>>>();
        let numbers = room(NUMBERS)?.try_into().expect("so many");
        let [nodes, links, symbols] = self.set.rooms.each_ref().map(Vec::len);
        let rooms = [room(nodes)?, room(links)?, room(symbols)?, room(self.set.scratch as usize)?];
        rest.is_empty().then_some(Left { answer: numbers, rooms })
    }

    /// How many statements the root has, if there are rows.
    pub fn statements(&self) -> Option<usize> {
        Some(self.set.rows()?.nodes.last()?[LINK_COUNT] as usize)
    }

    /// 15 and 22 'first, as in L8', with 21 between them; 'then 20 when the choice's length isn't the statement count'. Code, rule and row.
    pub fn verdict(&self) -> [u32; 3] {
        let [_, _, symbols] = self.set.counts;
        if self.builtins > symbols || needed(self.set.counts) > u64::from(self.set.scratch) {
            return [15, 0, 0];
        }
        match self.set.verdict() {
            [0, ..] if self.statements() != Some(self.choice.len()) => [20, 0, 0],
            verdict => verdict,
        }
    }

    /// What the call answers and leaves.
    pub fn left(&self) -> Left {
        self.left_of(|| packed(&self.set.rows().expect("they fit"), self.builtins, &self.choice))
    }

    /// What it answers and leaves if these are the rows that are left where nothing is refused.
    pub fn left_of(&self, rows: impl FnOnce() -> Rows) -> Left {
        let [nodes, links, symbols] = self.set.rooms.clone();
        let mut rooms = [nodes, links, symbols, vec![BEFORE; self.set.scratch as usize]];
        let [code, rule, row] = self.verdict();
        if code != 15 && code != 21 {
            rooms[3].fill(0);
        }
        if code != 0 {
            return Left { answer: [code, 0, 0, 0, rule, row], rooms };
        }
        // 'pack the rows to the front and zero the freed ones'
        let rows = rows();
        let set = RowSet::of(self.set.edition, &rows);
        assert_eq!(set.verdict(), [0, 0, 0], "what is left breaks a rule: {rows:?}");
        for ((room, left), (count, width)) in
            rooms.iter_mut().zip(&set.rooms).zip(self.set.counts.into_iter().zip([NODE_WIDTH, 3, 2]))
        {
            let (freed, front) = (left.len()..width * count as usize, ..left.len());
            room[front].copy_from_slice(left);
            room[freed].fill(0);
        }
        let [nodes, links, symbols] = set.counts;
        Left { answer: [0, nodes, links, symbols, 0, 0], rooms }
    }
}

/// The rows without those statements whose number is 0, and without all that is below them. The others keep their order, and so do
/// their lists; built-in symbols stay, and the others are numbered by where the statements that are left say them first.
pub fn packed(rows: &Rows, builtins: u32, choice: &[u8]) -> Rows {
    let root = *rows.nodes.last().expect("a root");
    let list = &rows.links[root[FIRST_LINK] as usize..][..root[LINK_COUNT] as usize];
    let kept: Vec<_> =
        list.iter().zip(choice).filter(|(_, kept)| **kept != 0).map(|(link, _)| link[0]).collect();
    let mut walk = Walk { rows, met: BTreeSet::new(), words: Vec::new() };
    kept.iter().for_each(|statement| walk.meet(*statement));

    let mut symbols: BTreeMap<u32, u32> = (0..builtins).map(|symbol| (symbol, symbol)).collect();
    let mut left = Rows { symbols: rows.symbols[..builtins as usize].into(), ..Rows::default() };
    for [symbol, start, end] in walk.words {
        let next = symbols.len() as u32;
        if *symbols.entry(symbol).or_insert(next) == next {
            left.symbols.push([start, end]);
        }
    }

    let numbers: BTreeMap<u32, u32> = walk.met.iter().copied().zip(0..).collect();
    let child = |row: &u32| numbers.get(row).copied().unwrap_or(*row); // absent stays
    let mut add = |old: &[u32; NODE_WIDTH], parent: u32| {
        let mut row = *old;
        let mut place = AFTER_SPAN;
        for field in fields(old[0]) {
            match field {
                Field::UpTo(_) => {}
                Field::Symbol | Field::Name => row[place] = symbols[&old[place]],
                Field::Child | Field::Perhaps | Field::Returned => row[place] = child(&old[place]),
                Field::Nodes | Field::Names | Field::Entries => {
                    let list = &rows.links[old[place] as usize..][..old[place + 1] as usize];
                    row[place] = left.links.len() as u32;
                    left.links.extend(list.iter().map(|[first, second, third]| match field {
                        Field::Nodes => [child(first), *second, *third],
                        Field::Names => [symbols[first], *second, *third],
                        _ => [child(first), child(second), *third],
                    }));
                }
            }
            place += field.width();
        }
        row[PARENT] = parent;
        left.nodes.push(row);
    };
    let last = walk.met.len() as u32;
    for row in &walk.met {
        let old = &rows.nodes[*row as usize];
        add(old, numbers.get(&old[PARENT]).copied().unwrap_or(last));
    }
    let mut row = root;
    row[FIRST_LINK..=LINK_COUNT].copy_from_slice(&[left.links.len() as u32, kept.len() as u32]);
    left.links.extend(kept.iter().map(|statement| [child(statement), 0, 0]));
    left.nodes.push(row);
    left
}

/// A walk through rows in the order of their fields: which rows are met, and which words.
struct Walk<'r> {
    rows: &'r Rows,
    met: BTreeSet<u32>,
    /// Symbol and place. That of a string is what stands between its quotes.
    words: Vec<[u32; 3]>,
}

impl Walk<'_> {
    /// Absent is no row.
    fn meet(&mut self, number: u32) {
        let Some(row) = self.rows.nodes.get(number as usize) else { return };
        self.met.insert(number);
        let mut rest = &row[AFTER_SPAN..];
        for field in fields(row[0]) {
            let numbers = rest.split_off(..field.width()).expect("its numbers");
            let list = || self.rows.links[numbers[0] as usize..][..numbers[1] as usize].to_vec();
            match field {
                Field::UpTo(_) => {}
                Field::Symbol => {
                    self.words.push([numbers[0], row[1].saturating_add(1), row[2].saturating_sub(1)])
                }
                Field::Name => self.words.push([numbers[0], numbers[1], numbers[2]]),
                Field::Child | Field::Perhaps | Field::Returned => self.meet(numbers[0]),
                Field::Nodes => list().iter().for_each(|link| self.meet(link[0])),
                Field::Names => self.words.extend(list()),
                Field::Entries => {
                    list().iter().for_each(|link| link[..2].iter().for_each(|row| self.meet(*row)))
                }
            }
        }
    }
}

/// An accepted script, and which tokens are whose.
pub struct Script {
    terms: Terms,
    names: Builtins,
    case: Case,
    known: Known,
    statements: Vec<Range<usize>>,
}

impl Script {
    /// None: it is not accepted.
    pub fn of(names: Builtins, case: Case, terms: Terms) -> Option<Script> {
        let known = Known::beside(names.clone(), case.clone(), terms);
        let Outcome::Accepted(rows) = known.outcome() else { return None };
        let statements = statements(&case, &known, rows);
        Some(Script { terms, names, case, known, statements })
    }

    pub fn rows(&self) -> &Rows {
        accepted(&self.known)
    }

    /// How many of its symbols are built-in names.
    pub fn builtins(&self) -> u32 {
        self.names.places().len() as u32
    }

    pub fn edition(&self) -> u32 {
        self.terms.edition
    }

    /// The tokens of each of the root's statements, its `;` among them.
    pub fn statements(&self) -> &[Range<usize>] {
        &self.statements
    }

    /// The call that drops some of its statements.
    pub fn dropping(&self, choice: &[u8]) -> Dropping {
        Dropping::of(self.edition(), self.rows(), self.builtins(), choice)
    }

    /// 'the token list with the dropped statements and their `;` removed'; the text is the old one.
    pub fn without(&self, choice: &[u8]) -> Case {
        let kept = self.statements.iter().zip(choice).filter(|(_, kept)| **kept != 0);
        let eof = self.case.tokens.len() - 1..self.case.tokens.len();
        let places = kept.map(|(tokens, _)| tokens.clone()).chain([eof]).flatten();
        Case { text: self.case.text.clone(), tokens: places.map(|place| self.case.tokens[place]).collect() }
    }

    /// The reading of that list.
    pub fn shorter(&self, choice: &[u8]) -> Known {
        Known::beside(self.names.clone(), self.without(choice), self.terms)
    }

    /// The reading of the whole list.
    pub fn whole(&self) -> &Known {
        &self.known
    }
}

/// The rows of a script that is accepted.
pub fn accepted(known: &Known) -> &Rows {
    match known.outcome() {
        Outcome::Accepted(rows) => rows,
        Outcome::Refused(refusal) => panic!("a script without some statements is refused: {refusal:?}"),
    }
}

/// What the program `batch` is asked about a reading, and what it must answer: in rooms with a row for each token.
pub fn asked(known: &Known) -> (Vec<u8>, Vec<u8>) {
    let rooms: Rooms = known.ample();
    (known.lent_all(rooms).encode(), known.answer(rooms).into_bytes())
}

/// Where the parser stands when a statement's row is asked for, only `)` and a `;` of it can be left. Together they are the list.
fn statements(case: &Case, known: &Known, rows: &Rows) -> Vec<Range<usize>> {
    let nodes: Vec<_> = known.asked().iter().filter(|asked| asked.row == Row::Node).collect();
    let root = rows.nodes.last().expect("a root");
    let list = &rows.links[root[FIRST_LINK] as usize..][..root[LINK_COUNT] as usize];
    let mut end = 0;
    let mut next = |link: &[u32; 3]| {
        let start = end;
        end = nodes[link[0] as usize].at;
        while case.tokens[end].kind == RIGHT_PAREN {
            end += 1;
        }
        end += (case.tokens[end].kind == SEMICOLON) as usize;
        start..end
    };
    let statements: Vec<_> = list.iter().map(&mut next).collect();
    assert_eq!(end + 1, case.tokens.len(), "statements are all tokens before Eof");
    statements
}
