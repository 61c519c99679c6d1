//! Rows of another build that are made to mislead (request L8): lists that overlap, rows that are named many times, long
//! chains and lists, empty lists, cycles, and rows with one to three rules broken on purpose.
use crate::{
    damages::{break_rule, damage},
    grown::{Manner, grown, own, plausible},
    random::Random,
    rows::{ABSENT, Rows},
    slots::{Number, adopt, lists, places, row},
    terms::{FIRST, SECOND},
    verdicts::{Field, fields},
};

/// Rows, and the edition that they are meant for.
pub fn hostile(random: &mut Random) -> (u32, Rows) {
    let edition = random.pick(&[FIRST, SECOND]);
    let rows = match random.below(22) {
        0..3 => overlapping(random),
        3 => covered(random),
        4 | 5 => stretched(random),
        6 | 7 => {
            let lacks = Some(random.pick(&[2, 8, 30]));
            return plausible(Manner { lacks, ..Manner::default() }, random);
        }
        8 => repeated(edition, random),
        9 => chain(edition, random),
        10 => wide(edition, random),
        11 => empty_lists(random),
        12 => cycle(edition, random),
        13 => exchanged(edition, random),
        _ => return broken(random),
    };
    (edition, rows)
}

/// Rows of a script, or of no script, with one to three rules broken.
fn broken(random: &mut Random) -> (u32, Rows) {
    let (edition, mut rows) = if random.once_in(2) { own(random) } else { grown(random) };
    for _ in 0..random.pick(&[1, 1, 1, 2, 3]) {
        // those that are checked last are met least
        let rule = random.pick(&[1, 2, 3, 4, 4, 5, 6, 6, 7, 7, 7, 7, 8, 8, 9, 9, 9]);
        break_rule(rule, edition, &mut rows, random);
    }
    (edition, rows)
}

/// How lists lie.
#[derive(Clone, Copy)]
enum Lie {
    Same,
    Nested,
    Shifted,
    Anyhow,
}

/// First and count of the list of this number within so many links.
fn lying(lie: Lie, number: usize, links: usize, random: &mut Random) -> [u32; 2] {
    let (first, count) = match lie {
        Lie::Same => (0, links),
        Lie::Nested => (number % (links / 2 + 1), links - 2 * (number % (links / 2 + 1))),
        Lie::Shifted => (number % (links + 1), (links / 3 + 1).min(links - number % (links + 1))),
        Lie::Anyhow => {
            let first = random.below(links + 1);
            (first, random.below(links - first + 1))
        }
    };
    [first as u32, count as u32]
}

fn size(random: &mut Random) -> usize {
    if random.once_in(25) { random.between(40, 400) } else { random.between(2, 24) }
}

/// Lists of nodes, names and entries that all cover the same links, which name one row, or each another one, or few, or none,
/// with one or two that are out of place.
fn overlapping(random: &mut Random) -> Rows {
    let (nodes, links) = (size(random), size(random));
    let symbols = random.pick(&[1, 3, nodes.min(60), 60]);
    let (one, what) = (random.below(nodes), random.below(5));
    let mut rows = Rows { symbols: vec![[0, 0]; symbols], ..Rows::default() };
    for link in 0..links {
        let first = match what {
            0 => one,
            1 => link,
            2 => random.below(3),
            3 => random.below(nodes),
            _ => ABSENT as usize,
        };
        let other = random.below(nodes) as u32;
        rows.links.push([first as u32, random.pick(&[0, ABSENT, ABSENT, ABSENT, other]), 0]);
    }
    for _ in 0..random.below(3) {
        let link = random.below(links);
        rows.links[link][0] = random.pick(&[nodes as u32, symbols as u32, nodes as u32 - 1, 0, 1, ABSENT]);
    }
    let kinds: &[u32] = random.pick(&[
        &[15, 17, 18, 19, 20, 26][..],
        &[15, 17, 20],
        &[17, 18, 26],
        &[19, 20],
        &[15, 20],
        &[17],
    ]);
    let lie = random.pick(&[Lie::Same, Lie::Nested, Lie::Shifted, Lie::Anyhow]);
    let leaves = random.below(nodes);
    for number in 0..nodes {
        let is_last = number + 1 == nodes;
        let is_leaf = number < leaves || number == 0 || random.once_in(4);
        let kind = match random.pick(kinds) {
            _ if is_last => 20,
            _ if is_leaf => 14,
            kind => kind,
        };
        let mut numbers = Vec::new();
        for field in fields(kind) {
            match field {
                Field::Name => numbers.extend([0, 0, 0]),
                Field::Child => numbers.push(random.below(number) as u32),
                Field::Nodes | Field::Names | Field::Entries => {
                    numbers.extend(lying(lie, number, links, random))
                }
                _ => numbers.push(ABSENT),
            }
        }
        rows.nodes.push(row(kind, &numbers));
    }
    if random.once_in(2) {
        adopt(&mut rows);
    }
    rows
}

/// A chain whose lists are right but for where they lie: each has links of its own, or such as are there already. All links are
/// names, or all are absent rows.
fn covered(random: &mut Random) -> Rows {
    let nodes = size(random).max(3);
    let has_names = random.once_in(2);
    let mut rows = Rows { symbols: vec![[0, 0]; 3], ..Rows::default() };
    rows.nodes.push(row(14, &[]));
    let again = random.pick(&[2, 4, nodes, 4 * nodes]);
    for number in 1..nodes - 1 {
        let before = number as u32 - 1;
        let links = rows.links.len();
        let [first, count] = if random.once_in(again) {
            let lie = random.pick(&[Lie::Same, Lie::Nested, Lie::Shifted, Lie::Anyhow]);
            lying(lie, number, links, random)
        } else {
            let count = random.below(4).min(380 - links.min(380));
            let first = if has_names { random.below(3) as u32 } else { ABSENT };
            rows.links.extend(vec![[first, 0, 0]; count]);
            [links as u32, count as u32]
        };
        rows.nodes.push(match random.below(2) {
            0 if has_names => row(18, &[2, 0, 0, first, count, before]),
            _ if has_names => row(19, &[first, count, before]),
            0 => row(15, &[before, first, count]),
            _ => row(20, &[first, count, before]),
        });
    }
    let first = rows.links.len() as u32;
    rows.links.push([nodes as u32 - 2, 0, 0]);
    rows.nodes.push(row(20, &[first, 1, ABSENT]));
    adopt(&mut rows);
    rows
}

/// Lists that begin before their own links or end behind them. There are so many symbols that a row's number may be one.
fn stretched(random: &mut Random) -> Rows {
    let kinds = random.pick(&[&[14, 17][..], &[14, 14, 15, 17, 20], &[14, 14, 17, 18, 19, 20, 26]]);
    let (_, mut rows) = match random.once_in(3) {
        true => own(random),
        false => plausible(Manner { kinds, ..Manner::default() }, random),
    };
    rows.symbols.resize(60, [0, 0]);
    let links = rows.links.len();
    let lists = lists(&rows);
    for _ in 0..random.between(1, 2) {
        let [first, count] = random.pick(&lists);
        let [start, length] = [first, count].map(|place| place.get(&rows) as usize);
        let earlier = random.below(start.min(3) + 1);
        let later = random.below((links - start - length).min(3) + 1);
        first.set(&mut rows, (start - earlier) as u32);
        count.set(&mut rows, (length + earlier + later) as u32);
    }
    if random.once_in(2) {
        adopt(&mut rows);
    }
    rows
}

/// One row named in place of some others.
fn repeated(edition: u32, random: &mut Random) -> Rows {
    let (_, mut rows) = if random.once_in(2) { own(random) } else { grown(random) };
    let one = random.below(rows.nodes.len());
    let once_in = random.pick(&[1, 2, 5]);
    for place in places(&rows) {
        if place.names_a_row() && place.row > one && random.once_in(once_in) {
            place.set(&mut rows, one as u32);
        }
    }
    if random.once_in(2) {
        adopt(&mut rows);
    }
    if random.once_in(4) {
        break_rule(random.between(5, 9), edition, &mut rows, random);
    }
    rows
}

/// One long list of nodes, entries or names. Mostly something is wrong with it.
fn wide(edition: u32, random: &mut Random) -> Rows {
    let items = if random.once_in(3) { random.between(200, 390) } else { random.between(2, 40) };
    let count = items as u32;
    let mut rows = Rows { symbols: vec![[0, 0]; 3], ..Rows::default() };
    let kind = random.pick(&[17, 18, 20]);
    let leaves = if kind == 18 { 1 } else { items };
    rows.nodes.extend(vec![row(14, &[]); leaves]);
    rows.links.extend((0..count).map(|item| match kind {
        17 => [item, ABSENT, 0],
        18 => [item % 3, 0, ABSENT],
        _ => [item, 0, 0],
    }));
    rows.nodes.push(match kind {
        17 => row(17, &[0, count]),
        18 => row(18, &[2, 0, 0, 0, count, 0]),
        _ => row(20, &[0, count, ABSENT]),
    });
    rows.links.push([leaves as u32, 0, 0]);
    rows.nodes.push(row(20, &[count, 1, ABSENT]));
    adopt(&mut rows);
    spoil(edition, &mut rows, random);
    rows
}

/// Damages rows, or breaks a rule, two times out of three.
fn spoil(edition: u32, rows: &mut Rows, random: &mut Random) {
    match random.below(3) {
        0 => {}
        1 => damage(rows, random),
        _ => break_rule(random.between(1, 9), edition, rows, random),
    }
}

/// Each row names the one before it. Often something is wrong with one of them.
fn chain(edition: u32, random: &mut Random) -> Rows {
    let nodes = if random.once_in(3) { random.between(200, 400) } else { random.between(2, 40) };
    let mut rows = Rows { symbols: vec![[0, 0]], ..Rows::default() };
    rows.nodes.push(row(random.pick(&[10, 12, 13, 14, 24]), &[]));
    for number in 1..nodes as u32 - 1 {
        let (before, end) = (number - 1, rows.links.len() as u32);
        let next = match random.below(8) {
            0 => row(4, &[before]),
            1 => row(5, &[1, before]),
            2 => row(7, &[0, 0, 0, before]),
            3 => row(16, &[before, 0, 0, 0]),
            4 => row(19, &[end, 0, before]),
            5 => row(20, &[end, 0, before]),
            6 => {
                rows.links.push([before, ABSENT, 0]);
                row(17, &[end, 1])
            }
            _ => row(23, &[before]),
        };
        rows.nodes.push(next);
    }
    let first = rows.links.len() as u32;
    rows.links.push([nodes as u32 - 2, 0, 0]);
    rows.nodes.push(row(20, &[first, 1, ABSENT]));
    adopt(&mut rows);
    spoil(edition, &mut rows, random);
    rows
}

/// Rows with empty lists, and some with names, that begin where they should, or elsewhere.
fn empty_lists(random: &mut Random) -> Rows {
    let nodes = random.between(1, 16);
    let mut rows = Rows { symbols: vec![[0, 0]; 2], ..Rows::default() };
    let wrong = random.pick(&[2, 6, 20, 400]);
    let most = 2 * nodes + 2;
    for number in 0..nodes as u32 - 1 {
        if random.once_in(3) {
            let end = rows.links.len() as u32;
            let count = random.below(3) as u32;
            rows.links.extend(vec![[1, number, ABSENT]; count as usize]);
            let lists = if random.once_in(2) { [end, count, end + count, 0] } else { [end, 0, end, count] };
            rows.nodes.push(row(26, &lists));
            continue;
        }
        let end = rows.links.len() as u32;
        let mut empty = || [if random.once_in(wrong) { random.below(most) as u32 } else { end }, 0];
        let [first, second] = [empty(), empty()];
        let one = row(17, &first);
        let two = row(26, &[first, second].concat());
        let three = row(20, &[first[0], 0, ABSENT]);
        rows.nodes.push(random.pick(&[one, two, three]));
    }
    let first = rows.links.len() as u32;
    rows.links.extend((0..nodes as u32 - 1).map(|row| [row, 0, 0]));
    rows.nodes.push(row(20, &[first, nodes as u32 - 1, ABSENT]));
    adopt(&mut rows);
    rows
}

/// A row that names itself, two that name each other, or more in a ring.
fn cycle(edition: u32, random: &mut Random) -> Rows {
    let (_, mut rows) = if random.once_in(2) { own(random) } else { grown(random) };
    let children: Vec<_> = places(&rows).into_iter().filter(|place| place.number == Number::Child).collect();
    if children.is_empty() {
        break_rule(3, edition, &mut rows, random);
        return rows;
    }
    let ring: Vec<_> = (0..random.between(1, 3)).map(|_| random.pick(&children)).collect();
    for (number, place) in ring.iter().enumerate() {
        let next = ring[(number + 1) % ring.len()].row;
        place.set(&mut rows, next as u32);
    }
    if random.once_in(2) {
        adopt(&mut rows);
    }
    rows
}

/// Two lists, of whatever sort, each with the other's links.
fn exchanged(edition: u32, random: &mut Random) -> Rows {
    let (_, mut rows) = if random.once_in(2) { own(random) } else { grown(random) };
    let lists = lists(&rows);
    if lists.len() < 2 {
        break_rule(6, edition, &mut rows, random);
        return rows;
    }
    let at = random.below(lists.len() - 1);
    let [one, other] = [lists[at], lists[random.between(at + 1, lists.len() - 1)]];
    for half in 0..random.between(1, 2) {
        let [first, second] = [one[half].get(&rows), other[half].get(&rows)];
        one[half].set(&mut rows, second);
        other[half].set(&mut rows, first);
    }
    if random.once_in(2) {
        adopt(&mut rows);
    }
    rows
}
