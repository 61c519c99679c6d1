//! Rows that are right (request L8): those of accepted scripts, and those of trees that no script need have, the least with each
//! kind among them; and rows of the latter sort in which some numbers are not right, or some children are absent.
use crate::{
    answer::LIMIT,
    beside::for_case,
    builtins::Builtins,
    case::Case,
    damages::changed,
    door, judge,
    list::{Gaps, printed},
    random::Random,
    rows::{ABSENT, NODE_WIDTH, Outcome, PARENT, Rows},
    scripts::script,
    slots::{adopt, row},
    terms::{FIRST, SECOND, Terms},
    verdicts::{AFTER_SPAN, Field, fields},
};

/// The most rows of a set, so that some numbers can be left over.
const MOST: usize = 400;
const MOST_SYMBOLS: usize = 56;

fn size(random: &mut Random) -> usize {
    match random.below(25) {
        0..20 => random.between(1, 24),
        20..24 => random.between(24, 50),
        _ => random.between(50, 500),
    }
}

/// The rows of an accepted script and its edition, every other one beside built-in names.
pub fn own(random: &mut Random) -> (u32, Rows) {
    loop {
        let edition = random.pick(&[FIRST, SECOND]);
        let size = size(random);
        let words = script(edition, random, size);
        let case = printed(&words, Gaps::Space, random);
        let names = match random.once_in(2) {
            true => for_case(&case, 12, random),
            false => Builtins::default(),
        };
        let Some(rows) = rows(edition, &names, &case) else { continue };
        if rows.nodes.len() <= MOST && rows.links.len() <= MOST && rows.symbols.len() <= MOST_SYMBOLS {
            return (edition, rows);
        }
    }
}

/// The rows of a script, if it is accepted.
pub fn rows(edition: u32, names: &Builtins, case: &Case) -> Option<Rows> {
    let terms = Terms { edition, limit: LIMIT };
    if door::refusal(case, terms).is_some() {
        return None;
    }
    match judge::read(names, case, terms).outcome {
        Outcome::Accepted(rows) => Some(rows),
        Outcome::Refused(_) => None,
    }
}

/// The least rows with a kind: its children are Nils, its lists have two items, and its numbers are as large as they may be. The
/// child of this number, if there is one, is absent.
pub fn least(kind: u32, lacks: Option<usize>) -> Rows {
    let mut rows = Rows { symbols: vec![[0, 0]; 2], ..Rows::default() };
    let mut children = 0..;
    let mut child = || {
        let number = children.next();
        if lacks.is_some() && number == lacks {
            return ABSENT;
        }
        rows.nodes.push(row(14, &[]));
        rows.nodes.len() as u32 - 1
    };
    let mut numbers = Vec::new();
    for field in fields(kind) {
        match field {
            Field::UpTo(most) => numbers.push(*most),
            Field::Symbol => numbers.push(1),
            Field::Name => numbers.extend([1, ABSENT, 3]),
            Field::Child | Field::Perhaps | Field::Returned => numbers.push(child()),
            Field::Nodes | Field::Names | Field::Entries => {
                numbers.extend([rows.links.len() as u32, 2]);
                rows.links.extend([0, 1].map(|_| match field {
                    Field::Nodes => [child(), 0, 0],
                    Field::Names => [1, 4, ABSENT],
                    _ => [child(), child(), 0],
                }));
            }
        }
    }
    rows.nodes.push(row(kind, &numbers));
    let (last, first) = (rows.nodes.len() as u32 - 1, rows.links.len() as u32);
    rows.links.push([last, 0, 0]);
    rows.nodes.push(row(20, &[first, 1, ABSENT]));
    adopt(&mut rows);
    rows
}

/// A tree that no script need have, and its edition: any kinds in any place, children in any order, any spans, any symbol rows.
pub fn grown(random: &mut Random) -> (u32, Rows) {
    plausible(Manner::default(), random)
}

/// How trees are made.
#[derive(Clone, Copy, Default)]
pub struct Manner {
    /// Numbers are drawn in another way once in so many times.
    pub slips: Option<usize>,
    /// Children are absent once in so many times.
    pub lacks: Option<usize>,
    /// The kinds that are drawn; all, where none is given.
    pub kinds: &'static [u32],
}

/// A tree that is made in this manner.
pub fn plausible(manner: Manner, random: &mut Random) -> (u32, Rows) {
    let edition = random.pick(&[FIRST, SECOND]);
    let size = match random.below(25) {
        0..20 => random.between(1, 12),
        20..24 => random.between(12, 40),
        _ => random.between(40, 200),
    };
    let symbols = (0..random.between(1, 8)).map(|_| [any(random), any(random)]).collect();
    let rows = Rows { symbols, ..Rows::default() };
    let mut tree = Growing { edition, random, manner, rows, open: Vec::new() };
    while tree.rows.nodes.len() + 1 < size && tree.rows.links.len() < MOST / 2 {
        let kind = tree.kind();
        tree.grow(kind);
    }
    tree.root();
    (edition, tree.rows)
}

/// A number that no rule speaks of.
fn any(random: &mut Random) -> u32 {
    let number = random.next() as u32;
    random.pick(&[0, 0, 1, 7, ABSENT, number])
}

struct Growing<'r> {
    edition: u32,
    random: &'r mut Random,
    manner: Manner,
    rows: Rows,
    /// The rows that are not named yet.
    open: Vec<u32>,
}

impl Growing<'_> {
    /// A kind for whose children there are rows.
    fn kind(&mut self) -> u32 {
        loop {
            let kind = match self.manner.kinds {
                [] => self.random.between(1, 26) as u32,
                kinds => self.random.pick(kinds),
            };
            let is_required = |field: &&Field| matches!(field, Field::Child | Field::Returned);
            let required = fields(kind).iter().filter(is_required).count();
            if required <= self.open.len() || self.manner.lacks.is_some() && self.random.once_in(2) {
                return kind;
            }
        }
    }

    /// The number, or now and then another.
    fn slip(&mut self, number: u32) -> u32 {
        match self.manner.slips {
            Some(times) if self.random.once_in(times) => changed(number, &self.rows, self.random),
            _ => number,
        }
    }

    /// A row that is not named yet, often the newest, or now and then none. The row that is being made is its parent.
    fn take(&mut self) -> u32 {
        if self.open.is_empty() || self.manner.lacks.is_some_and(|times| self.random.once_in(times)) {
            return ABSENT;
        }
        let newest = self.open.len() - 1;
        let place = if self.random.once_in(2) { newest } else { self.random.below(newest + 1) };
        let child = self.open.remove(place);
        self.rows.nodes[child as usize][PARENT] = self.slip(self.rows.nodes.len() as u32);
        child
    }

    fn perhaps(&mut self) -> u32 {
        if self.open.is_empty() || self.random.once_in(2) { ABSENT } else { self.take() }
    }

    fn symbol(&mut self) -> u32 {
        self.random.below(self.rows.symbols.len()) as u32
    }

    fn name(&mut self) -> [u32; 3] {
        [self.symbol(), any(self.random), any(self.random)]
    }

    fn grow(&mut self, kind: u32) {
        let mut numbers = Vec::new();
        for field in fields(kind) {
            match field {
                Field::UpTo(most) => numbers.push(self.random.below(*most as usize + 1) as u32),
                Field::Symbol => numbers.push(self.symbol()),
                Field::Name => numbers.extend(self.name()),
                Field::Child => numbers.push(self.take()),
                Field::Perhaps => numbers.push(self.perhaps()),
                Field::Returned if self.edition == SECOND => numbers.push(self.perhaps()),
                Field::Returned => numbers.push(self.take()),
                Field::Nodes | Field::Names | Field::Entries => {
                    let count = self.random.below(4);
                    let list = self.list(*field, count);
                    numbers.extend(list);
                }
            }
        }
        self.push(kind, numbers);
    }

    /// Writes a list of so many items, or of as many as there are rows for.
    fn list(&mut self, field: Field, count: usize) -> [u32; 2] {
        let first = self.rows.links.len();
        for _ in 0..count {
            if field != Field::Names && self.open.is_empty() {
                break;
            }
            let link = match field {
                Field::Names => self.name(),
                Field::Nodes => [self.take(), 0, 0],
                _ => [self.take(), self.perhaps(), 0],
            };
            let link = link.map(|number| self.slip(number));
            self.rows.links.push(link);
        }
        [first as u32, (self.rows.links.len() - first) as u32]
    }

    /// The root has all rows that are not named yet.
    fn root(&mut self) {
        self.manner.lacks = None;
        let [first, count] = self.list(Field::Nodes, self.open.len());
        self.push(20, vec![first, count, ABSENT]);
    }

    fn push(&mut self, kind: u32, numbers: Vec<u32>) {
        let mut row = [0; NODE_WIDTH];
        row[..AFTER_SPAN].copy_from_slice(&[kind, any(self.random), any(self.random)]);
        row[AFTER_SPAN..][..numbers.len()].copy_from_slice(&numbers);
        row[PARENT] = ABSENT; // until it is named
        self.open.push(self.rows.nodes.len() as u32);
        let row = row.map(|number| self.slip(number));
        self.rows.nodes.push(row);
    }
}
