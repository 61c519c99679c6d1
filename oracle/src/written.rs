//! Row sets that are written down (request L8): all choices of faults, the edges of each kind, rooms and counts, and the rows of
//! scripts.
use crate::{
    builtins::Builtins,
    corners::{EDITIONS, RULES, SAMPLES},
    damages::edges,
    grown::{least, rows},
    list::script,
    rows::{ABSENT, PARENT, Rows},
    rowsets::Sort,
    slots::{adopt, row},
    terms::{FIRST, SECOND},
    verdicts::RowSet,
};

/// What can be wrong with a call, in the order of checking: scratch that is a number short (15), edition 3 (21), and each rule.
pub const FAULTS: usize = 11;

/// Rows with those faults whose bits are set, each in a row of its own.
pub fn faulty(edition: u32, faults: usize) -> RowSet {
    let has = |fault: usize| faults & 1 << fault != 0;
    let either = |fault: usize, wrong: u32, right: u32| if has(fault) { wrong } else { right };
    let mut rows = Rows {
        nodes: vec![
            row(14, &[]),
            row(14, &[either(9, 1, 0)]),
            row(either(8, 4, 14), &[either(8, ABSENT, 0)]),
            row(17, &[either(7, 1, 0), 0]),
            row(14, &[]),
            row(14, &[]),
            row(2, &[4, either(5, 4, 5)]),
            row(14, &[]),
            row(4, &[either(4, 8, 7)]),
            row(13, &[either(3, 2, 1)]),
            row(either(2, 27, 14), &[]),
            row(20, &[0, 8, either(6, 10, ABSENT)]),
        ],
        links: [0, 1, 2, 3, 6, 8, 9, either(6, ABSENT, 10)].map(|child| [child, 0, 0]).into(),
        symbols: Vec::new(),
    };
    let parents = [either(10, 0, 11), 11, 11, 11, 6, 6, 11, 8, 11, 11, 11, ABSENT];
    rows.nodes.iter_mut().zip(parents).for_each(|(row, parent)| row[PARENT] = parent);
    let mut set = RowSet::of(either(1, 3, edition), &rows);
    set.scratch -= has(0) as u32;
    set
}

/// As many times a row can be named by rows of their own, and by one list.
const AT_ONCE: usize = 390;

/// A row that is named so many times: by rows of their own, or if they are too many, by lists that overlap.
pub fn named_times(times: usize) -> RowSet {
    let mut rows = Rows { nodes: vec![row(14, &[])], ..Rows::default() };
    if times <= AT_ONCE {
        rows.nodes.extend(vec![row(4, &[0]); times]);
        rows.links.extend((1..=times as u32).map(|row| [row, 0, 0]));
        rows.nodes.push(row(20, &[0, times as u32, ABSENT]));
    } else {
        // a chain of calls, all with the same arguments
        rows.nodes.push(row(14, &[]));
        rows.links = vec![[0, 0, 0]; AT_ONCE];
        let mut left = times;
        while left > 0 {
            let count = left.min(AT_ONCE);
            let before = rows.nodes.len() as u32 - 1;
            rows.nodes.push(row(15, &[before, 0, count as u32]));
            left -= count;
        }
        rows.links.push([rows.nodes.len() as u32 - 1, 0, 0]);
        rows.nodes.push(row(20, &[AT_ONCE as u32, 1, ABSENT]));
    }
    adopt(&mut rows);
    RowSet::of(FIRST, &rows)
}

/// The sets that are written down.
pub fn corners() -> Vec<(Sort, RowSet)> {
    let mut sets = Vec::new();
    let mut all: Vec<usize> = (0..1 << FAULTS).collect();
    all.sort_by_key(|faults| faults.count_ones()); // so that a short run meets each outcome
    for (number, faults) in all.into_iter().enumerate() {
        sets.push((Sort::Hostile, faulty(FIRST + number as u32 % 2, faults)));
    }
    sets.extend([at_edges(), small_changes(), shared()].concat());
    for times in [0, 1, 2, 3, 255, 256, 257, 390, 391, 65_535, 65_536, 65_537] {
        sets.push((Sort::Hostile, named_times(times)));
    }
    for text in SAMPLES.iter().chain(RULES).chain(EDITIONS) {
        for edition in [FIRST, SECOND] {
            let Some(rows) = rows(edition, &Builtins::default(), &script(text)) else { continue };
            sets.extend([FIRST, SECOND].map(|edition| (Sort::Own, RowSet::of(edition, &rows))));
        }
    }
    let none = [Rows::default(), Rows { links: vec![[0, 0, 0]], symbols: vec![[0, 0]], ..Rows::default() }];
    sets.extend(none.map(|rows| (Sort::Sizes, RowSet::of(FIRST, &rows))));
    let rows = rows(FIRST, &Builtins::default(), &script("a; f(b);")).expect("an accepted script");
    sets.extend(in_sizes(&RowSet::of(FIRST, &rows)).into_iter().map(|set| (Sort::Sizes, set)));
    sets
}

/// Changes of the least rows with a kind: that kind, and some numbers of its row by their places. For 0 it is the root's row.
type Changes = (u32, &'static [(usize, u32)]);

#[rustfmt::skip]
const CHANGES: &[Changes] = &[
    // kinds that are none
    (4, &[(0, 0)]), (4, &[(0, 27)]), (4, &[(0, 4 + 256)]), (4, &[(0, 4 + (1 << 31))]), (4, &[(0, ABSENT)]),
    // a child that is no row, and the root
    (4, &[(3, 2)]), (4, &[(3, 3)]), (4, &[(3, ABSENT - 1)]),
    // one child twice, and the other not at all
    (2, &[(3, 1)]), (2, &[(4, 0)]), (2, &[(3, 1), (4, 0)]),
    // unused numbers, and parents
    (14, &[(3, 256)]), (14, &[(8, 1 << 31)]), (14, &[(8, ABSENT)]), (14, &[(9, 0)]), (14, &[(9, 2)]), (14, &[(9, ABSENT)]),
    (0, &[(8, 1)]), (0, &[(9, 0)]), (0, &[(9, 1)]),
    // empty lists at the end of all links and past it; first and count that pass 32 digits together; lists that go back
    (26, &[(5, 5), (6, 0)]), (26, &[(5, 6), (6, 0)]), (26, &[(5, ABSENT), (6, 0)]), (26, &[(5, ABSENT), (6, 1)]),
    (26, &[(3, 1 << 31), (4, 1 << 31)]), (26, &[(3, 0), (4, ABSENT)]), (26, &[(3, 2), (5, 0)]), (26, &[(5, 0), (6, 0)]),
];

/// These, and a link that is left over.
pub fn small_changes() -> Vec<(Sort, RowSet)> {
    let changed = |(kind, changes): &Changes| {
        let mut rows = least(if *kind == 0 { 14 } else { *kind }, None);
        let row = rows.nodes.len() - if *kind == 0 { 1 } else { 2 };
        changes.iter().for_each(|(column, value)| rows.nodes[row][*column] = *value);
        (Sort::Damaged, RowSet::of(SECOND, &rows))
    };
    let left_over = [14, 26].map(|kind| {
        let mut rows = least(kind, None);
        rows.links.push([0, 0, 0]);
        (Sort::Damaged, RowSet::of(SECOND, &rows))
    });
    CHANGES.iter().map(changed).chain(left_over).collect()
}

/// The least rows with each kind, right and with a number just out of range, and without each of its children in turn. Both editions
/// have those whose child may be absent in one. And a root with a number out of range.
pub fn at_edges() -> Vec<(Sort, RowSet)> {
    let leaf = least(14, None);
    let roots = edges(&leaf, leaf.nodes.len() - 1);
    let mut sets: Vec<_> = roots.iter().map(|rows| (Sort::Random, RowSet::of(FIRST, rows))).collect();
    for kind in 1..=26 {
        let edition = FIRST + kind % 2;
        let rows = least(kind, None);
        let row = rows.nodes.len() - 2;
        let edges = [vec![rows.clone()], edges(&rows, row)].concat();
        sets.extend(edges.iter().map(|rows| (Sort::Random, RowSet::of(edition, rows))));
        let without = (0..row).map(|child| least(kind, Some(child)));
        for rows in without {
            let editions: &[u32] = if kind == 23 { &[FIRST, SECOND] } else { &[edition] };
            sets.extend(editions.iter().map(|edition| (Sort::Random, RowSet::of(*edition, &rows))));
        }
    }
    sets
}

/// Two lists with the same link, each of nodes, entries or names. Its key may be absent. What neither names the root does.
pub fn shared() -> Vec<(Sort, RowSet)> {
    let list = |kind: u32| match kind {
        17 => row(17, &[0, 1]),
        20 => row(20, &[0, 1, ABSENT]),
        _ => row(26, &[0, 1, 1, 0]),
    };
    let mut sets = Vec::new();
    for kinds in [17, 20, 26].map(|kind| [17, 20, 26].map(|other| [kind, other])).concat() {
        for key in [0, ABSENT] {
            let names_key = key == 0 && kinds != [26, 26];
            let names_value = kinds.contains(&17);
            let statements = [(!names_key).then_some(0), (!names_value).then_some(1), Some(2), Some(3)];
            let statements: Vec<_> = statements.into_iter().flatten().map(|child| [child, 0, 0]).collect();
            let root = row(20, &[1, statements.len() as u32, ABSENT]);
            let mut rows = Rows {
                nodes: vec![row(14, &[]), row(14, &[]), list(kinds[0]), list(kinds[1]), root],
                links: [vec![[key, 1, 0]], statements].concat(),
                symbols: vec![[0, 0]],
            };
            adopt(&mut rows);
            sets.push((Sort::Hostile, RowSet::of(SECOND, &rows)));
        }
    }
    sets
}

/// A set with a number less in each room, with some more, and with counts that are too large; each in this edition, and then in
/// none.
pub fn in_sizes(set: &RowSet) -> Vec<RowSet> {
    let mut sets = vec![set.clone()];
    for room in 0..4 {
        let mut less = set.clone();
        shorten(&mut less, room);
        let mut more = set.clone();
        match more.rooms.get_mut(room) {
            Some(room) => room.extend([ABSENT; 11]),
            None => more.scratch += 5,
        }
        sets.extend([less, more]);
    }
    for huge in HUGE {
        for count in 0..3 {
            let mut set = set.clone();
            set.counts[count] = huge;
            sets.push(set);
        }
    }
    let nameless: Vec<_> = sets.iter().map(|set| RowSet { edition: 0, ..set.clone() }).collect();
    [sets, nameless].concat()
}

/// Counts that are too large for any room, also where ten, three or two times as many are a small number again.
pub const HUGE: [u32; 12] = [
    u32::MAX,
    1 << 31,
    429_496_730,
    1_431_655_766,
    u32::MAX - 1,
    (1 << 31) + 1,
    1 << 30,
    429_496_729,
    858_993_460,
    1_431_655_765,
    65_536,
    1_000,
];

/// How many sets there are with each room a number less and with some more, and with the first two of these counts.
pub const SIZES: usize = 1 + 2 * 4 + 2 * 3;

/// Leaves a room a number less than the rows need.
pub fn shorten(set: &mut RowSet, room: usize) {
    let [nodes, links, symbols] = set.counts;
    let need = [10 * nodes, 3 * links, 2 * symbols, nodes + 2 * links][room];
    let less = need.saturating_sub(1);
    match set.rooms.get_mut(room) {
        Some(room) => room.truncate(less as usize),
        None => set.scratch = less,
    }
}
