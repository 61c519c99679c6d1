//! Request L8: rows that another build wrote, as they are lent, and what the check says of them. Written from document 02's
//! words, a function for each rule: it goes over all rows and gives the first that breaks it.
use crate::{
    case::number,
    rows::{ABSENT, NODE_WIDTH, PARENT, Rows},
    terms::{FIRST, SECOND},
    texts::encoded,
};

/// The most numbers that the program `verdicts` takes: of nodes, links, symbols and scratch.
pub const LARGEST: [u32; 4] = [4_100, 1_300, 130, 3_100];
/// What each number of scratch is before the call.
const BEFORE: u32 = 7;
/// The kind of the last row, and where its tail stands.
const BLOCK: u32 = 20;
const TAIL: usize = 5;
/// The first number of a row after its span, and the first after those that its fields may take.
pub const AFTER_SPAN: usize = 3;
pub const AFTER_FIELDS: usize = PARENT;

/// Rows as they are lent.
#[derive(Clone, PartialEq, Eq, Debug)]
pub struct RowSet {
    pub edition: u32,
    /// How many rows of nodes, links and symbols there are said to be.
    pub counts: [u32; 3],
    /// The numbers of their rooms.
    pub rooms: [Vec<u32>; 3],
    /// How many numbers scratch has.
    pub scratch: u32,
}

impl RowSet {
    /// Rows in rooms that they fill, with just as much scratch as they need.
    pub fn of(edition: u32, rows: &Rows) -> RowSet {
        let counts = [rows.nodes.len(), rows.links.len(), rows.symbols.len()].map(|count| count as u32);
        let rooms = [rows.nodes.as_flattened(), rows.links.as_flattened(), rows.symbols.as_flattened()]
            .map(Vec::from);
        RowSet { edition, counts, rooms, scratch: counts[0] + 2 * counts[1] }
    }

    /// The rows that are counted, if the rooms have them.
    pub fn rows(&self) -> Option<Rows> {
        let [nodes, links, symbols] = self.counts.map(|count| count as usize);
        Some(Rows {
            nodes: self.rooms[0].as_chunks().0.get(..nodes)?.to_vec(),
            links: self.rooms[1].as_chunks().0.get(..links)?.to_vec(),
            symbols: self.rooms[2].as_chunks().0.get(..symbols)?.to_vec(),
        })
    }

    pub fn encode(&self) -> Vec<u8> {
        let [nodes, links, symbols] = &self.rooms;
        let lengths = [nodes, links, symbols].map(|room| room.len() as u32);
        let head = [&[self.edition][..], &self.counts, &lengths, &[self.scratch]].concat();
        encoded(&[&head, &nodes[..], links, symbols].concat())
    }

    /// None: a room that is too large, or a frame that does not end with its last number.
    pub fn decode(frame: &[u8]) -> Option<RowSet> {
        let mut rest = frame;
        let mut next = || number(&mut rest);
        let edition = next()?;
        let counts = [next()?, next()?, next()?];
        let sizes = [next()?, next()?, next()?, next()?];
        if sizes.iter().zip(LARGEST).any(|(size, largest)| *size > largest) {
            return None;
        }
        let [nodes, links, symbols, scratch] = sizes;
        let mut room = |size| (0..size).map(|_| next()).collect::<Option<Vec<_>>>();
        let rooms = [room(nodes)?, room(links)?, room(symbols)?];
        rest.is_empty().then_some(RowSet { edition, counts, rooms, scratch })
    }

    /// Code, rule and row.
    pub fn verdict(&self) -> [u32; 3] {
        let [nodes, links, symbols] = self.counts.map(u64::from);
        let [has_nodes, has_links, has_symbols] = [0, 1, 2].map(|room| self.rooms[room].len() as u64);
        let has_scratch = u64::from(self.scratch);
        if 10 * nodes > has_nodes
            || 3 * links > has_links
            || 2 * symbols > has_symbols
            || nodes + 2 * links > has_scratch
        {
            return [15, 0, 0];
        }
        if self.edition != FIRST && self.edition != SECOND {
            return [21, 0, 0];
        }
        let foreign = Foreign { edition: self.edition, rows: self.rows().expect("they fit") };
        let mut rules = (1..).zip(RULES);
        let failed = rules.find_map(|(rule, broken)| broken(&foreign).map(|row| [22, rule, row as u32]));
        failed.unwrap_or([0, 0, 0])
    }

    /// The verdict, and then all numbers of scratch as the call leaves it.
    pub fn answer(&self) -> Vec<u32> {
        let verdict = self.verdict();
        let is_unchanged = verdict[0] == 15 || verdict[0] == 21;
        let after = if is_unchanged { BEFORE } else { 0 };
        let mut answer = verdict.to_vec();
        answer.resize(verdict.len() + self.scratch as usize, after);
        answer
    }
}

/// What a row has after its span: document 01, 'Rows'.
#[derive(Clone, Copy, PartialEq, Eq, Debug)]
pub enum Field {
    /// An operator or a Boolean: a number up to this one.
    UpTo(u32),
    /// A symbol alone.
    Symbol,
    /// N: a symbol and its place.
    Name,
    /// A row.
    Child,
    /// A tail or an else: a row, or absent.
    Perhaps,
    /// What `return` has: a row, and in edition 2 perhaps absent.
    Returned,
    /// L: first link row and count, of (node, 0, 0), of (N) and of (key, value, 0).
    Nodes,
    Names,
    Entries,
}

impl Field {
    pub fn width(self) -> usize {
        match self {
            Field::Name => 3,
            Field::Nodes | Field::Names | Field::Entries => 2,
            _ => 1,
        }
    }

    pub fn is_list(self) -> bool {
        matches!(self, Field::Nodes | Field::Names | Field::Entries)
    }
}

/// The fields of a kind. Number (12), Nil (14), Break (24) and Continue (25) have none.
pub fn fields(kind: u32) -> &'static [Field] {
    use Field::*;
    match kind {
        1 => &[UpTo(10), Child, Child],
        2 | 3 | 6 => &[Child, Child],
        4 => &[Child],
        5 => &[UpTo(1), Child],
        7..=9 => &[Name, Child],
        10 => &[Name],
        11 => &[Symbol],
        13 => &[UpTo(1)],
        15 => &[Child, Nodes],
        16 => &[Child, Name],
        17 => &[Entries],
        18 => &[Name, Names, Child],
        19 => &[Names, Child],
        20 => &[Nodes, Perhaps],
        21 => &[Child, Child, Perhaps],
        22 => &[Child, Child],
        23 => &[Returned],
        26 => &[Names, Names],
        _ => &[],
    }
}

/// A rule: the first row that breaks it.
type Rule = fn(&Foreign) -> Option<usize>;

const RULES: [Rule; 9] = [
    Foreign::unknown,
    Foreign::out_of_range,
    Foreign::not_earlier,
    Foreign::not_named_once,
    Foreign::not_rooted,
    Foreign::not_consecutive,
    Foreign::lacking,
    Foreign::unclean,
    Foreign::wrong_parent,
];

/// The rows of another build, and the edition that they are checked in.
struct Foreign {
    edition: u32,
    rows: Rows,
}

impl Foreign {
    /// 'kinds 1 to 26'
    fn unknown(&self) -> Option<usize> {
        self.first(|row| !(1..=26).contains(&self.rows.nodes[row][0]))
    }

    /// 'operators, Booleans, symbols and lists in range'
    fn out_of_range(&self) -> Option<usize> {
        let is_symbol = |symbol: u32| (symbol as usize) < self.rows.symbols.len();
        let is_right = |(field, numbers): (Field, &[u32])| match field {
            Field::UpTo(most) => numbers[0] <= most,
            Field::Symbol | Field::Name => is_symbol(numbers[0]),
            Field::Child | Field::Perhaps | Field::Returned => true,
            Field::Nodes | Field::Entries => self.has_list(numbers),
            Field::Names => {
                self.has_list(numbers) && self.list(numbers).iter().all(|link| is_symbol(link[0]))
            }
        };
        self.first(|row| !self.parts(row).into_iter().all(is_right))
    }

    /// 'children earlier, the absent number apart'
    fn not_earlier(&self) -> Option<usize> {
        self.first(|row| self.named(row).iter().any(|(child, _)| *child != ABSENT && *child as usize >= row))
    }

    /// 'every row but the last named once'
    fn not_named_once(&self) -> Option<usize> {
        let namings = self.namings();
        let times = |row: usize| namings.iter().filter(|(_, child)| *child as usize == row).count();
        (0..self.last()).find(|row| times(*row) != 1)
    }

    /// 'last row a Block with no tail'
    fn not_rooted(&self) -> Option<usize> {
        let is_root = |row: &[u32; NODE_WIDTH]| row[0] == BLOCK && row[TAIL] == ABSENT;
        (!self.rows.nodes.last().is_some_and(is_root)).then_some(self.last())
    }

    /// 'lists consecutive and covering all links in node order'
    fn not_consecutive(&self) -> Option<usize> {
        let mut end = 0;
        for row in 0..self.rows.nodes.len() {
            for (field, numbers) in self.parts(row) {
                if !field.is_list() {
                    continue;
                }
                if u64::from(numbers[0]) != end {
                    return Some(row);
                }
                end += u64::from(numbers[1]);
            }
        }
        (end != self.rows.links.len() as u64).then_some(self.last())
    }

    /// 'absent only where allowed'
    fn lacking(&self) -> Option<usize> {
        self.first(|row| self.named(row).iter().any(|(child, is_allowed)| *child == ABSENT && !is_allowed))
    }

    /// 'unused numbers 0'
    fn unclean(&self) -> Option<usize> {
        let is_clean = |(field, numbers): (Field, &[u32])| match field {
            Field::Nodes => self.list(numbers).iter().all(|link| link[1] == 0 && link[2] == 0),
            Field::Entries => self.list(numbers).iter().all(|link| link[2] == 0),
            _ => true,
        };
        self.first(|row| {
            let parts = self.parts(row);
            let used: usize = parts.iter().map(|(field, _)| field.width()).sum();
            let unused = &self.rows.nodes[row][AFTER_SPAN + used..AFTER_FIELDS];
            unused.iter().any(|number| *number != 0) || !parts.into_iter().all(is_clean)
        })
    }

    /// L11: 'the tenth number is the one later row that names this one', 'absent at the root'
    fn wrong_parent(&self) -> Option<usize> {
        let namings = self.namings();
        let parent = |row: usize| namings.iter().rfind(|(_, child)| *child as usize == row);
        self.first(|row| self.rows.nodes[row][PARENT] != parent(row).map_or(ABSENT, |(by, _)| *by as u32))
    }

    fn first(&self, breaks: impl Fn(usize) -> bool) -> Option<usize> {
        (0..self.rows.nodes.len()).find(|row| breaks(*row))
    }

    /// The last row; 0 where there are no rows.
    fn last(&self) -> usize {
        self.rows.nodes.len().saturating_sub(1)
    }

    /// The fields of a row, each with its numbers.
    fn parts(&self, row: usize) -> Vec<(Field, &[u32])> {
        let mut rest = &self.rows.nodes[row][AFTER_SPAN..];
        let fields = fields(self.rows.nodes[row][0]);
        fields.iter().map(|field| (*field, rest.split_off(..field.width()).expect("its numbers"))).collect()
    }

    /// Whether all links of a list are there.
    fn has_list(&self, numbers: &[u32]) -> bool {
        u64::from(numbers[0]) + u64::from(numbers[1]) <= self.rows.links.len() as u64
    }

    /// The links of a list that are there.
    fn list(&self, numbers: &[u32]) -> &[[u32; 3]] {
        let count = self.rows.links.len();
        let first = count.min(numbers[0] as usize);
        &self.rows.links[first..count.min(first + numbers[1] as usize)]
    }

    /// What a row names, itself or in its links, and whether it may be absent there.
    fn named(&self, row: usize) -> Vec<(u32, bool)> {
        let mut named = Vec::new();
        for (field, numbers) in self.parts(row) {
            match field {
                Field::UpTo(_) | Field::Symbol | Field::Name | Field::Names => {}
                Field::Child => named.push((numbers[0], false)),
                Field::Perhaps => named.push((numbers[0], true)),
                Field::Returned => named.push((numbers[0], self.edition == SECOND)),
                Field::Nodes => named.extend(self.list(numbers).iter().map(|link| (link[0], false))),
                Field::Entries => named
                    .extend(self.list(numbers).iter().flat_map(|link| [(link[0], false), (link[1], true)])),
            }
        }
        named
    }

    /// All that is named by any row: the row that names it, and what.
    fn namings(&self) -> Vec<(usize, u32)> {
        let of = |row: usize| self.named(row).into_iter().map(move |(child, _)| (row, child));
        (0..self.rows.nodes.len()).flat_map(of).collect()
    }
}
