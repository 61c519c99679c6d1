//! Damages of rows (request L8): anything changed, or one rule broken on purpose.
use crate::{
    random::Random,
    rows::{ABSENT, NODE_WIDTH, PARENT, Rows},
    slots::{Number, Place, drop_link, has, insert_link, lists, one_of, places, places_of, renumber, row},
    terms::SECOND,
    verdicts::{AFTER_FIELDS, AFTER_SPAN},
};

/// Another number in place of one: a plain one, one beside it, absent, one near a count, or any.
pub fn changed(old: u32, rows: &Rows, random: &mut Random) -> u32 {
    let near = |count: usize, random: &mut Random| (count as u32 + 1).wrapping_sub(random.below(4) as u32);
    match random.below(12) {
        0 => 0,
        1 => 1,
        2 | 3 => old.wrapping_add(1),
        4 | 5 => old.wrapping_sub(1),
        6 => ABSENT,
        7 => near(rows.nodes.len(), random),
        8 => near(rows.links.len(), random),
        9 => near(rows.symbols.len(), random),
        10 => random.below(30) as u32,
        _ => random.next() as u32,
    }
}

/// Changes a number; or exchanges two of a row; or exchanges, drops or doubles a row or a link, the others moved or not; or moves a
/// list by one, or its end.
pub fn damage(rows: &mut Rows, random: &mut Random) {
    let [nodes, links] = [rows.nodes.len(), rows.links.len()];
    if nodes == 0 {
        return;
    }
    let row = random.below(nodes);
    match random.below(18) {
        0..5 => {
            let column = random.below(NODE_WIDTH);
            rows.nodes[row][column] = changed(rows.nodes[row][column], rows, random);
        }
        5 => rows.nodes[row][PARENT] = changed(rows.nodes[row][PARENT], rows, random),
        6 | 7 if links > 0 => {
            let (link, column) = (random.below(links), random.below(3));
            rows.links[link][column] = changed(rows.links[link][column], rows, random);
        }
        8 => rows.nodes.swap(row, random.below(nodes)),
        9 if row > 0 => {
            let [low, high] = [row as u32 - 1, row as u32];
            renumber(rows, |number| match number {
                _ if number == low => high,
                _ if number == high => low,
                _ => number,
            });
            rows.nodes.swap(row - 1, row);
        }
        10 if links > 0 => rows.links.swap(random.below(links), random.below(links)),
        11 => {
            rows.nodes.remove(row);
            if !random.once_in(3) {
                renumber(rows, |number| number - (number as usize > row) as u32);
            }
        }
        12 => {
            if !random.once_in(3) {
                renumber(rows, |number| number.saturating_add((number as usize > row) as u32));
            }
            rows.nodes.insert(row, rows.nodes[row]);
        }
        13 if links > 0 => {
            let link = random.below(links);
            if random.once_in(4) {
                rows.links.remove(link);
            } else {
                drop_link(rows, link);
            }
        }
        14 if links > 0 => {
            let link = random.below(links);
            let copy = rows.links[link];
            insert_link(rows, link, copy, random.once_in(2));
        }
        15 => {
            let [one, other] = [0, 1].map(|_| random.between(AFTER_SPAN, AFTER_FIELDS - 1));
            rows.nodes[row].swap(one, other);
        }
        16 if links > 0 => rows.links[random.below(links)].swap(random.below(3), random.below(3)),
        _ => {
            let is_half = |place: &Place| matches!(place.number, Number::First | Number::Count);
            let Some(half) = one_of(&places_of(rows, is_half), random) else { return };
            let old = half.get(rows);
            half.set(rows, if random.once_in(2) { old.wrapping_add(1) } else { old.wrapping_sub(1) });
        }
    }
}

/// These rows with a number of one of them, or of its links, just out of range, one in each: an operator or symbol that is one too
/// large, a list that is one link too long or too short or lies one further, past the links or not, a row that names itself, its
/// first unused number and those of its links.
pub fn edges(rows: &Rows, row: usize) -> Vec<Rows> {
    let [links, symbols] = [rows.links.len(), rows.symbols.len()].map(|count| count as u32);
    let mut edges = Vec::new();
    let own = places_of(rows, |place| place.row == row);
    for (number, place) in own.iter().enumerate() {
        let old = place.get(rows);
        let values = match place.number {
            Number::Kind | Number::Free | Number::Parent => vec![],
            Number::UpTo(most) => vec![most + 1],
            Number::Symbol => vec![symbols],
            Number::Child | Number::Perhaps => vec![row as u32],
            Number::First => vec![old + 1, links + 1 - own[number + 1].get(rows)],
            Number::Count => vec![old - 1, links + 1 - own[number - 1].get(rows)],
            Number::Unused if place.link.is_none() && own[number - 1].number == Number::Unused => vec![],
            Number::Unused => vec![1],
        };
        for value in values {
            let mut edge = rows.clone();
            place.set(&mut edge, value);
            edges.push(edge);
        }
    }
    edges
}

/// Kinds that name rows and have no list, so that a row without a list can become one.
const NAMING: [u32; 13] = [1, 2, 3, 4, 5, 6, 7, 8, 9, 16, 21, 22, 23];

/// Breaks this rule, and none with a lower number, if the rows were right.
pub fn break_rule(rule: usize, edition: u32, rows: &mut Rows, random: &mut Random) {
    let [nodes, links, symbols] = [rows.nodes.len(), rows.links.len(), rows.symbols.len()].map(|n| n as u32);
    if nodes == 0 {
        return;
    }
    let root = nodes as usize - 1;
    match rule {
        1 => {
            let row = random.below(nodes as usize);
            let kind = rows.nodes[row][0];
            rows.nodes[row][0] = random.pick(&[0, 27, 28, 255, kind ^ 256, kind ^ 1 << 31, ABSENT]);
        }
        2 => {
            let is_bounded = |place: &Place| {
                matches!(place.number, Number::UpTo(_) | Number::Symbol | Number::First | Number::Count)
            };
            let Some(place) = one_of(&places_of(rows, is_bounded), random) else { return };
            let least = match place.number {
                Number::UpTo(most) => most + 1,
                Number::Symbol => symbols,
                // what the other number of the list leaves
                Number::First => (links + 1).saturating_sub(rows.nodes[place.row][place.column + 1]),
                _ => (links + 1).saturating_sub(rows.nodes[place.row][place.column - 1]),
            };
            let wrapping = match place.number {
                Number::First => rows.nodes[place.row][place.column + 1].wrapping_neg(),
                Number::Count => rows.nodes[place.row][place.column - 1].wrapping_neg(),
                _ => 256,
            };
            let value = random.pick(&[least, least, least.saturating_add(1), wrapping, 1 << 31, ABSENT]);
            place.set(rows, value.max(least));
        }
        3 => {
            let Some(place) = one_of(&places_of(rows, |place| place.names_a_row()), random) else { return };
            let own = place.row as u32;
            place.set(rows, random.pick(&[own, own, own + 1, nodes - 1, nodes, 1 << 31, ABSENT - 1]));
        }
        4 => {
            let is_free = |place: &Place| place.names_a_row() && place.row > 0;
            let Some(place) = one_of(&places_of(rows, is_free), random) else { return };
            let (old, mut other) = (place.get(rows), random.below(place.row) as u32);
            if other == old {
                other = (other + 1) % place.row as u32;
            }
            if place.number == Number::Perhaps && old != ABSENT && random.once_in(2) {
                other = ABSENT;
            }
            place.set(rows, other);
        }
        5 => break_root(root, rows, random),
        6 => break_lists(rows, random),
        7 => lack(edition, rows, random),
        8 => {
            let unused = places_of(rows, |place| place.number == Number::Unused);
            let Some(place) = one_of(&unused, random) else { return };
            place.set(rows, random.pick(&[1, 1, 2, nodes, 1 << 31, ABSENT]));
        }
        _ => {
            let row = random.below(nodes as usize);
            let old = rows.nodes[row][PARENT];
            let others = [
                0,
                row as u32,
                row as u32 + 1,
                nodes - 1,
                nodes,
                ABSENT,
                old.wrapping_add(1),
                old.wrapping_sub(1),
            ];
            rows.nodes[row][PARENT] = random.pick(&others);
        }
    }
}

/// A row behind the root that names it; or the root's last statement as its tail; or no rows.
fn break_root(root: usize, rows: &mut Rows, random: &mut Random) {
    let end = rows.links.len() as u32;
    let [_, _, _, first, count, ..] = rows.nodes[root];
    match random.below(5) {
        0 if count > 0 && end > 0 && first.checked_add(count) == Some(end) => {
            let [tail, ..] = rows.links.pop().expect("a statement");
            rows.nodes[root][4..6].copy_from_slice(&[count - 1, tail]);
        }
        1 if random.once_in(4) => rows.nodes.clear(),
        _ => {
            let child = root as u32;
            let [not, returned] = [4, 23].map(|kind| row(kind, &[child]));
            let [lambda, block] = [19, 20].map(|kind| row(kind, &[end, 0, child]));
            rows.nodes[root][PARENT] = child + 1;
            rows.nodes.push(random.pick(&[not, returned, lambda, block]));
        }
    }
}

/// A link that no list has; an empty list with another first link; two lists that stand in the other order; a list of names
/// that ends one link too early.
fn break_lists(rows: &mut Rows, random: &mut Random) {
    let links = rows.links.len();
    let lists = lists(rows);
    let numbers = [random.below(3) as u32, 0, 0];
    match random.below(5) {
        0 => rows.links.push(numbers),
        1 if links > 0 => insert_link(rows, random.below(links), numbers, false),
        2 => {
            let empty: Vec<_> =
                lists.iter().filter(|list| list[1].get(rows) == 0).map(|list| list[0]).collect();
            match one_of(&empty, random) {
                Some(place) => place.set(rows, random.below(links + 1) as u32),
                None => rows.links.push(numbers),
            }
        }
        3 if lists.len() > 1 => {
            let at = random.below(lists.len() - 1);
            let [[first, count], [next, next_count]] = [lists[at], lists[at + 1]];
            let [start, length, more] = [first, count, next_count].map(|place| place.get(rows) as usize);
            let Some(both) = rows.links.get_mut(start..start + length + more) else { return };
            both.rotate_left(length);
            next.set(rows, start as u32);
            first.set(rows, (start + more) as u32);
        }
        _ => {
            let names = places_of(rows, |place| place.number == Number::Symbol && place.link.is_some());
            let Some(name) = one_of(&names, random) else { return rows.links.push(numbers) };
            let link = name.link.expect("one of a link");
            let list = lists.into_iter().find(|list| has(rows, *list, link)).expect("its list");
            let count = list[1].get(rows);
            list[1].set(rows, count - 1);
        }
    }
}

/// A leaf that becomes a row without its children; a statement or an argument that is absent; or a child that stands where it
/// could be absent, and is absent where it should stand.
fn lack(edition: u32, rows: &mut Rows, random: &mut Random) {
    let is_leaf = |row: &usize| matches!(rows.nodes[*row][0], 10..=14 | 24 | 25);
    let leaves: Vec<_> = (0..rows.nodes.len()).filter(is_leaf).collect();
    let items = places_of(rows, |place| place.number == Number::Child && place.link.is_some());
    let spare = places_of(rows, |place| place.number == Number::Perhaps && place.get(rows) == ABSENT);
    let required = places_of(rows, |place| place.number == Number::Child);
    let beside = |place: &Place| {
        let is_beside = |other: &Place| other.row == place.row && other.link == place.link;
        required.iter().copied().find(is_beside).map(|child| (child, *place))
    };
    let pairs: Vec<_> = spare.iter().filter_map(beside).collect();
    match random.below(4) {
        0 if !items.is_empty() => {
            let link = random.pick(&items).link;
            let is_entry =
                places(rows).iter().any(|place| place.link == link && place.number == Number::Perhaps);
            let value = if is_entry { ABSENT } else { 0 };
            insert_link(rows, link.expect("one of a list"), [ABSENT, value, 0], true);
        }
        1 if !pairs.is_empty() => {
            let (child, place) = random.pick(&pairs);
            let row = child.get(rows);
            place.set(rows, row);
            child.set(rows, ABSENT);
        }
        _ if !leaves.is_empty() => {
            let row = random.pick(&leaves);
            let kind = random.pick(if edition == SECOND { &NAMING[..12] } else { &NAMING });
            rows.nodes[row][0] = kind;
            rows.nodes[row][AFTER_SPAN..AFTER_FIELDS].fill(0);
            let own = places_of(rows, |place| place.row == row && place.names_a_row());
            own.into_iter().for_each(|place| place.set(rows, ABSENT));
            // a name needs a symbol
            if rows.symbols.is_empty() {
                rows.symbols.push([0, 0]);
            }
        }
        _ => {}
    }
}
