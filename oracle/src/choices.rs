//! The choices of a run (request L12): choice `index` of a seed is always the same.
use crate::{
    answer::LIMIT,
    beside::for_case,
    builtins::Builtins,
    case::{Case, MAX_TOKENS},
    corners::{EDITIONS, RULES, SAMPLES},
    drops::{Dropping, MOST_CHOSEN, Script},
    editions::WRONG,
    grown::grown,
    hostile::hostile,
    list::{Gaps, printed, script},
    random::Random,
    rows::ABSENT,
    rowsets::{Sets, leave_over},
    scripts,
    terms::{FIRST, SECOND, Terms},
    verdicts::{LARGEST, RowSet},
};

/// Where a choice comes from.
#[derive(Clone, Copy, PartialEq, Eq, Debug)]
pub enum Sort {
    /// The rows of an accepted script, with its built-in names and in its edition: what is left is the reading of the shorter list.
    Own,
    /// Such rows asked for in another way: other built-in symbols, another edition, a choice of another length, other rooms.
    Asked,
    /// Trees that no script need have.
    Grown,
    /// Any row sets of request L8, most of them wrong.
    Foreign,
}

pub const SORTS: [Sort; 4] = [Sort::Own, Sort::Asked, Sort::Grown, Sort::Foreign];

#[derive(Clone, PartialEq, Eq, Debug)]
pub struct Choice {
    pub sort: Sort,
    pub dropping: Dropping,
    /// The script of an own choice.
    source: Option<Source>,
}

#[derive(Clone, PartialEq, Eq, Debug)]
struct Source {
    edition: u32,
    names: Builtins,
    case: Case,
}

impl Source {
    fn script(&self) -> Option<Script> {
        let terms = Terms { edition: self.edition, limit: LIMIT };
        Script::of(self.names.clone(), self.case.clone(), terms)
    }
}

impl Choice {
    pub fn other(sort: Sort, dropping: Dropping) -> Choice {
        Choice { sort, dropping, source: None }
    }

    /// Some statements of a script. It has to be accepted.
    pub fn own(edition: u32, names: &[&str], text: &str, choice: &[u8]) -> Choice {
        let source = Source { edition, names: built_in(names), case: script(text) };
        let dropping = source.script().expect("an accepted script").dropping(choice);
        Choice { sort: Sort::Own, dropping, source: Some(source) }
    }

    pub fn is_own(&self) -> bool {
        self.source.is_some()
    }

    /// The script of an own choice.
    pub fn script(&self) -> Option<Script> {
        self.source.as_ref().map(|source| source.script().expect("an accepted script"))
    }
}

/// Built-in names, one behind the other.
pub fn built_in(names: &[&str]) -> Builtins {
    let mut lent = Builtins::default();
    for name in names {
        let start = lent.text.len() as u32;
        lent.text.extend(name.bytes());
        lent.rows.extend([start, lent.text.len() as u32]);
    }
    lent
}

pub struct Choices {
    seed: u64,
    corners: Vec<Choice>,
    sets: Sets,
}

impl Choices {
    pub fn new(seed: u64) -> Choices {
        Choices { seed, corners: corners(), sets: Sets::new(seed) }
    }

    /// First those that are written down. What is drawn has no larger rooms than the program takes.
    pub fn get(&self, index: u64) -> Choice {
        if let Some(corner) = self.corners.get(index as usize) {
            return corner.clone();
        }
        let mut choice = self.drawn(&mut Random::of(self.seed, index));
        let RowSet { rooms, scratch, .. } = &mut choice.dropping.set;
        rooms.iter_mut().zip(LARGEST).for_each(|(room, most)| room.truncate(most as usize));
        *scratch = LARGEST[3].min(*scratch);
        choice
    }

    fn drawn(&self, random: &mut Random) -> Choice {
        match random.below(10) {
            0..5 => own(random),
            5 => asked(random),
            6..8 => {
                let (edition, rows) = grown(random);
                Choice::other(Sort::Grown, chosen(RowSet::of(edition, &rows), random))
            }
            8 => {
                let (edition, rows) = hostile(random);
                Choice::other(Sort::Foreign, chosen(RowSet::of(edition, &rows), random))
            }
            _ => {
                let (_, set) = self.sets.get(random.next() % SETS);
                Choice::other(Sort::Foreign, chosen(set, random))
            }
        }
    }
}

/// So many row sets of request L8 are drawn from.
const SETS: u64 = 200_000;

/// All choices of the scripts that are written down for parsers, in both editions, alone and beside two names that many have.
fn corners() -> Vec<Choice> {
    let mut choices = crate::kept::written();
    for text in SAMPLES.iter().chain(RULES).chain(EDITIONS) {
        for edition in [FIRST, SECOND] {
            for names in [&[][..], &["b", "a"]] {
                let source = Source { edition, names: built_in(names), case: script(text) };
                let Some(script) = source.script() else { continue };
                let count = script.statements().len();
                for kept in 0..1 << count.min(4) {
                    let choice: Vec<u8> = (0..count).map(|place| kept >> place.min(3) & 1).collect();
                    let dropping = script.dropping(&choice);
                    choices.push(Choice { sort: Sort::Own, dropping, source: Some(source.clone()) });
                }
            }
        }
    }
    choices
}

/// All, none, one, all but one, or any.
fn choice(count: usize, random: &mut Random) -> Vec<u8> {
    let kept = |random: &mut Random| random.pick(&[1, 1, 1, 2, 128, 255]);
    let one = random.below(count.max(1));
    match random.below(10) {
        0 => vec![kept(random); count],
        1 => vec![0; count],
        2 => (0..count).map(|place| if place == one { kept(random) } else { 0 }).collect(),
        3 => (0..count).map(|place| if place == one { 0 } else { kept(random) }).collect(),
        _ => (0..count).map(|_| if random.once_in(2) { kept(random) } else { 0 }).collect(),
    }
}

/// The most rows of a script, so that some numbers can be left over.
const MOST: usize = 400;
const MOST_SYMBOLS: usize = 56;

/// An accepted script of one to eight scripts' words, every other one beside built-in names.
fn source(random: &mut Random) -> (Source, Script) {
    loop {
        let edition = random.pick(&[FIRST, SECOND]);
        let parts = random.pick(&[1, 1, 2, 3, 5, 8]);
        let mut words = Vec::new();
        for _ in 0..parts {
            let size = if random.once_in(12) { random.between(24, 200) } else { random.between(1, 24) };
            words.extend(scripts::script(edition, random, size));
        }
        words.truncate(MAX_TOKENS - 1);
        let gaps = random.pick(&[Gaps::Space, Gaps::Blanks, Gaps::None, Gaps::Any]);
        let case = printed(&words, gaps, random);
        let names = match random.once_in(2) {
            true => for_case(&case, 12, random),
            false => Builtins::default(),
        };
        let source = Source { edition, names, case };
        let Some(script) = source.script() else { continue };
        let rows = script.rows();
        if rows.nodes.len() <= MOST && rows.links.len() <= MOST && rows.symbols.len() <= MOST_SYMBOLS {
            return (source, script);
        }
    }
}

fn own(random: &mut Random) -> Choice {
    let (source, script) = source(random);
    let mut dropping = script.dropping(&choice(script.statements().len(), random));
    if random.once_in(3) {
        leave_over(&mut dropping.set, random);
    }
    Choice { sort: Sort::Own, dropping, source: Some(source) }
}

/// The rows of a script, with something else about the call.
fn asked(random: &mut Random) -> Choice {
    let (_, script) = source(random);
    let mut dropping = script.dropping(&choice(script.statements().len(), random));
    let symbols = dropping.set.counts[2];
    for _ in 0..random.pick(&[1, 1, 1, 2, 3]) {
        match random.below(8) {
            0 | 1 => dropping.builtins = random.below(symbols as usize + 1) as u32,
            2 => dropping.builtins = random.pick(&[symbols, symbols + 1, ABSENT]),
            3 => dropping.set.edition = FIRST + SECOND - script.edition(),
            4 => dropping.set.edition = random.pick(&WRONG),
            5 => leave_over(&mut dropping.set, random),
            6 => other_length(&mut dropping, random),
            _ => shorten(&mut dropping.set, random),
        }
    }
    Choice::other(Sort::Asked, dropping)
}

/// A choice of another length: a number less or more, or none at all.
fn other_length(dropping: &mut Dropping, random: &mut Random) {
    let count = dropping.choice.len();
    let others = [count.saturating_sub(1), count + 1, 0, count + 256];
    let count = random.pick(&others).min(MOST_CHOSEN);
    dropping.choice.resize(count, 1);
}

/// A room, or scratch, a number less.
fn shorten(set: &mut RowSet, random: &mut Random) {
    match set.rooms.get_mut(random.below(4)) {
        Some(room) => room.truncate(room.len().saturating_sub(1)),
        None => set.scratch = set.scratch.saturating_sub(1),
    }
}

/// A row set of request L8 with as much more scratch as this call needs, and mostly a choice that fits.
fn chosen(mut set: RowSet, random: &mut Random) -> Dropping {
    let [nodes, _, symbols] = set.counts;
    let more = nodes.saturating_add(symbols);
    set.scratch = set.scratch.saturating_add(more).min(LARGEST[3]);
    let builtins = match random.below(16) {
        0 => random.pick(&[symbols.saturating_add(1), ABSENT]),
        1 | 2 => symbols,
        3..8 => 0,
        _ => random.below(symbols.min(64) as usize + 1) as u32,
    };
    if random.once_in(4) {
        leave_over(&mut set, random);
    }
    let mut dropping = Dropping { set, builtins, choice: Vec::new() };
    let count = dropping.statements().filter(|count| *count <= MOST_CHOSEN);
    let count = count.unwrap_or_else(|| random.below(8));
    dropping.choice = choice(count, random);
    if random.once_in(16) {
        other_length(&mut dropping, random);
    }
    dropping
}
