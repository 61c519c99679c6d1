//! The row sets of a run (request L8): set `index` of a seed is always the same.
use crate::{
    builtins::Builtins,
    damages::damage,
    editions::WRONG,
    grown::{Manner, grown, least, own, plausible, rows},
    hostile::hostile,
    list::script,
    random::Random,
    rows::{ABSENT, Rows},
    terms::{FIRST, SECOND},
    verdicts::RowSet,
    written::{
        FAULTS, HUGE, SIZES, at_edges, corners, faulty, in_sizes, named_times, shared, shorten, small_changes,
    },
};

/// Where rows come from.
#[derive(Clone, Copy, PartialEq, Eq, Debug)]
pub enum Sort {
    /// The rows of accepted scripts, in both editions.
    Own,
    /// The same with one to three changes.
    Damaged,
    /// Trees that no script need have, with mostly plausible numbers.
    Random,
    /// Rows that are made to mislead.
    Hostile,
    /// Any of them in rooms that have numbers left over, or too few.
    Sizes,
}

pub const SORTS: [Sort; 5] = [Sort::Own, Sort::Damaged, Sort::Random, Sort::Hostile, Sort::Sizes];

/// How many outcomes there are: 0, 15, 21, and 22 by each of nine rules.
pub const OUTCOMES: usize = 12;

/// Which of them a verdict is.
pub fn outcome([code, rule, _]: [u32; 3]) -> usize {
    match code {
        0 => 0,
        15 => 1,
        21 => 2,
        _ => 2 + rule as usize,
    }
}

pub struct Sets {
    seed: u64,
    corners: Vec<(Sort, RowSet)>,
    /// Sets each number of which is changed in turn.
    bases: Vec<RowSet>,
}

/// Scripts with every kind of row, one of them with a `return` that has no child.
const EVERY: [(u32, &str); 2] = [
    (
        FIRST,
        "import a.b: c; fun f(x, y) { return -x; } let y = 1 + f(2, 3).b; const z = #{a: \"s\", b}; \
         ref r = |q| not q and true or nil; while a { break; continue } if a {} else { y = z }",
    ),
    (
        SECOND,
        "import a:; fun f() { return } if not (a)(b).c { return; } else { const s = ^x } |p, q| {}; while true { break } \
         let m = #{\"k\": nil, 1 * 2} or #{}; ref r = a and b; x = y; continue; return 3;",
    ),
];

impl Sets {
    pub fn new(seed: u64) -> Sets {
        let every = |(edition, text): (u32, &str)| {
            let rows = rows(edition, &Builtins::default(), &script(text)).expect("an accepted script");
            RowSet::of(edition, &rows)
        };
        let least = (1..=26).map(|kind| RowSet::of(FIRST + kind % 2, &least(kind, None)));
        Sets { seed, corners: corners(), bases: EVERY.map(every).into_iter().chain(least).collect() }
    }

    /// First the corners; then every third set is one with a single number changed, until there are no more of them.
    pub fn get(&self, index: u64) -> (Sort, RowSet) {
        if let Some(corner) = self.corners.get(index as usize) {
            return corner.clone();
        }
        let index = index - self.corners.len() as u64;
        let count: usize = self.bases.iter().map(swept).sum();
        if index % 3 == 0 && index / 3 < count as u64 {
            return (Sort::Damaged, self.sweep(index as usize / 3 * 31_337 % count));
        }
        drawn(&mut Random::of(self.seed, index))
    }

    fn sweep(&self, number: usize) -> RowSet {
        let mut number = number;
        for base in &self.bases {
            if number < swept(base) {
                let mut set = base.clone();
                let places = numbers(&mut set);
                let place = places.into_iter().nth(number / VALUES).expect("one of them");
                *place = value(*place, number % VALUES, base.counts);
                return set;
            }
            number -= swept(base);
        }
        unreachable!("so many there are")
    }
}

/// The numbers of a set that are changed: the edition, the counts, node rows and link rows.
fn numbers(set: &mut RowSet) -> Vec<&mut u32> {
    let [nodes, links, _] = &mut set.rooms;
    [&mut set.edition].into_iter().chain(&mut set.counts).chain(nodes).chain(links).collect()
}

/// How many sets differ from this one in a number.
fn swept(base: &RowSet) -> usize {
    VALUES * numbers(&mut base.clone()).len()
}

/// How many numbers are tried in place of each.
const VALUES: usize = 12;

fn value(old: u32, which: usize, [nodes, links, symbols]: [u32; 3]) -> u32 {
    let others = [old.wrapping_add(1), old.wrapping_sub(1), old ^ 1 << 31];
    let near = [nodes - 1, nodes, links, links + 1, symbols];
    [&[0, 1, 2, ABSENT][..], &others, &near].concat()[which]
}

fn drawn(random: &mut Random) -> (Sort, RowSet) {
    use Sort::*;
    let sort =
        random.pick(&[Own, Damaged, Damaged, Damaged, Random, Random, Hostile, Hostile, Hostile, Sizes]);
    let set = match sort {
        Own => {
            let (edition, rows) = own(random);
            let edition = match random.below(10) {
                0 => random.pick(&WRONG),
                1..5 => FIRST + SECOND - edition,
                _ => edition,
            };
            lent(edition, &rows, random)
        }
        Damaged => {
            let (edition, mut rows) = own(random);
            (0..random.pick(&[1, 1, 1, 2, 3])).for_each(|_| damage(&mut rows, random));
            let mut set = lent(edition, &rows, random);
            if random.once_in(8) {
                // a row more is one of numbers left over, if there are so many
                leave_over(&mut set, random);
                let count = random.below(3);
                let changed = if random.once_in(2) { 1 } else { u32::MAX };
                set.counts[count] = set.counts[count].wrapping_add(changed);
            }
            set
        }
        Random => {
            let slips = random.pick(&[None, Some(8), Some(30), Some(100), Some(300)]);
            let (edition, rows) = plausible(Manner { slips, ..Manner::default() }, random);
            lent(edition, &rows, random)
        }
        Hostile => {
            let (edition, rows) = hostile(random);
            lent(edition, &rows, random)
        }
        Sizes => sized(random),
    };
    (sort, set)
}

/// Rows in rooms that they fill, or with numbers left over; now and then with a number that names no edition.
fn lent(edition: u32, rows: &Rows, random: &mut Random) -> RowSet {
    let edition = if random.once_in(40) { random.pick(&WRONG) } else { edition };
    let mut set = RowSet::of(edition, rows);
    if random.once_in(3) {
        leave_over(&mut set, random);
    }
    set
}

/// Adds numbers to some rooms.
pub fn leave_over(set: &mut RowSet, random: &mut Random) {
    let numbers = [0, 0, 1, 20, random.below(40) as u32, ABSENT];
    for (room, most) in set.rooms.iter_mut().zip([24, 8, 6]) {
        let any = random.below(most + 1);
        let more = random.pick(&[0, 1, any]);
        room.extend((0..more).map(|_| random.pick(&numbers)));
    }
    set.scratch += random.pick(&[0, 1, 2, 9]);
}

fn sized(random: &mut Random) -> RowSet {
    let (edition, rows) = match random.below(4) {
        0 | 1 => own(random),
        2 => grown(random),
        _ => hostile(random),
    };
    let edition = if random.once_in(6) { random.pick(&WRONG) } else { edition };
    let mut set = RowSet::of(edition, &rows);
    match random.below(8) {
        0 => {}
        1..4 => leave_over(&mut set, random),
        4 | 5 => {
            let room = random.below(4);
            if random.once_in(2) {
                leave_over(&mut set, random);
            }
            shorten(&mut set, room);
        }
        6 => set.counts[random.below(3)] = random.pick(&HUGE),
        _ => {
            let room = random.below(4);
            match set.rooms.get_mut(room) {
                Some(room) => room.clear(),
                None => set.scratch = 0,
            }
        }
    }
    set
}

/// The fixed list: each fault alone and with all that are checked after it; each kind's edges; numbers that name no edition; rooms
/// and counts; lists with the same link; of each sort, outcome and edition a small one; a row that is named 257 and 65,537 times,
/// and some large ones, right and with a late row that is wrong.
pub fn chosen() -> Vec<(Sort, RowSet)> {
    let faults = (0..FAULTS).flat_map(|fault| [1 << fault, (1 << FAULTS) - (1 << fault)]);
    let mut sets: Vec<_> = faults.map(|faults| (Sort::Hostile, faulty(SECOND, faults))).collect();
    sets.extend([at_edges(), small_changes(), shared()].concat());
    let rows = least(19, None);
    sets.extend(WRONG.map(|edition| (Sort::Sizes, RowSet::of(edition, &rows))));
    let in_sizes = in_sizes(&RowSet::of(FIRST, &rows)).into_iter().take(SIZES);
    sets.extend(in_sizes.map(|set| (Sort::Sizes, set)));
    let mut seen = [[[false; 2]; OUTCOMES]; SORTS.len()];
    let all = Sets::new(0);
    let mut large: Vec<_> = [257, 65_537].map(|times| (Sort::Hostile, named_times(times))).into();
    let (mut right, mut late) = (0, Vec::new());
    for index in all.corners.len() as u64..60_000 {
        let (sort, set) = all.get(index);
        let size = set.encode().len();
        let is_second = (set.edition == SECOND) as usize;
        let [_, rule, row] = set.verdict();
        let outcome = outcome(set.verdict());
        let seen = &mut seen[sort as usize][outcome][is_second];
        if size < 1_000 && !*seen {
            *seen = true;
            sets.push((sort, set));
        } else if size > 12_000 && outcome == 0 && right < 2 {
            right += 1;
            large.push((sort, set));
        } else if row > 256 && late.len() < 3 && !late.contains(&rule) {
            late.push(rule);
            large.push((sort, set));
        }
    }
    sets.extend(large);
    sets
}
