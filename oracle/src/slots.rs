//! What each number of rows is, and rows changed so that the others follow (request L8).
use std::collections::BTreeSet;

use crate::{
    random::Random,
    rows::{ABSENT, NODE_WIDTH, PARENT, Rows},
    verdicts::{AFTER_FIELDS, AFTER_SPAN, Field, fields},
};

/// A row of these numbers after its span, which is 0, 0, with no parent.
pub fn row(kind: u32, numbers: &[u32]) -> [u32; NODE_WIDTH] {
    let mut row = [0; NODE_WIDTH];
    row[0] = kind;
    row[AFTER_SPAN..][..numbers.len()].copy_from_slice(numbers);
    row[PARENT] = ABSENT;
    row
}

/// What a number of a row is.
#[derive(Clone, Copy, PartialEq, Eq, Debug)]
pub enum Number {
    Kind,
    UpTo(u32),
    Symbol,
    Child,
    Perhaps,
    First,
    Count,
    /// Of a span or a name's place.
    Free,
    Unused,
    Parent,
}

/// A number of a node row, or of a link row of its lists.
#[derive(Clone, Copy, PartialEq, Eq, Debug)]
pub struct Place {
    pub number: Number,
    pub row: usize,
    pub link: Option<usize>,
    pub column: usize,
}

impl Place {
    pub fn get(self, rows: &Rows) -> u32 {
        self.link.map_or(rows.nodes[self.row][self.column], |link| rows.links[link][self.column])
    }

    pub fn set(self, rows: &mut Rows, value: u32) {
        match self.link {
            Some(link) => rows.links[link][self.column] = value,
            None => rows.nodes[self.row][self.column] = value,
        }
    }

    pub fn names_a_row(self) -> bool {
        matches!(self.number, Number::Child | Number::Perhaps)
    }
}

/// All numbers of the node rows and of the links in their lists. The child of a `return` is one that may be absent.
pub fn places(rows: &Rows) -> Vec<Place> {
    use Number::*;
    let mut places = Vec::new();
    for (row, numbers) in rows.nodes.iter().enumerate() {
        let mut add = |number, link, column| places.push(Place { number, row, link, column });
        add(Kind, None, 0);
        add(Free, None, 1);
        add(Free, None, 2);
        let mut column = AFTER_SPAN;
        for field in fields(numbers[0]) {
            let (own, linked) = match *field {
                Field::UpTo(most) => (vec![UpTo(most)], None),
                Field::Symbol => (vec![Symbol], None),
                Field::Name => (vec![Symbol, Free, Free], None),
                Field::Child => (vec![Child], None),
                Field::Perhaps | Field::Returned => (vec![Perhaps], None),
                Field::Nodes => (vec![First, Count], Some([Child, Unused, Unused])),
                Field::Names => (vec![First, Count], Some([Symbol, Free, Free])),
                Field::Entries => (vec![First, Count], Some([Child, Perhaps, Unused])),
            };
            if let Some(linked) = linked {
                let first = numbers[column] as usize;
                let end = rows.links.len().min(first + numbers[column + 1] as usize);
                for link in first..end {
                    (0..3).for_each(|column| add(linked[column], Some(link), column));
                }
            }
            for number in own {
                add(number, None, column);
                column += 1;
            }
        }
        (column..AFTER_FIELDS).for_each(|column| add(Unused, None, column));
        add(Parent, None, PARENT);
    }
    places
}

pub fn places_of(rows: &Rows, is_wanted: impl Fn(&Place) -> bool) -> Vec<Place> {
    places(rows).into_iter().filter(is_wanted).collect()
}

pub fn one_of(places: &[Place], random: &mut Random) -> Option<Place> {
    (!places.is_empty()).then(|| random.pick(places))
}

/// Gives each row that is named, as a child or as a parent, another number.
pub fn renumber(rows: &mut Rows, number: impl Fn(u32) -> u32) {
    let mut seen = BTreeSet::new(); // lists may overlap
    for place in places_of(rows, |place| place.names_a_row() || place.number == Number::Parent) {
        let row = if place.link.is_some() { 0 } else { place.row };
        let old = place.get(rows);
        if old != ABSENT && seen.insert((place.link, row, place.column)) {
            place.set(rows, number(old));
        }
    }
}

/// Gives each list another first link.
fn relink(rows: &mut Rows, first: impl Fn(u32) -> u32) {
    for place in places_of(rows, |place| place.number == Number::First) {
        let old = place.get(rows);
        place.set(rows, first(old));
    }
}

/// A list: where its first link and its count stand.
pub type List = [Place; 2];

pub fn lists(rows: &Rows) -> Vec<List> {
    let halves = places_of(rows, |place| matches!(place.number, Number::First | Number::Count));
    halves.as_chunks().0.to_vec()
}

/// Writes each row's parent anew: the last row that names it.
pub fn adopt(rows: &mut Rows) {
    rows.nodes.iter_mut().for_each(|row| row[PARENT] = ABSENT);
    for place in places_of(rows, |place| place.names_a_row()) {
        let child = place.get(rows) as usize;
        if let Some(row) = rows.nodes.get_mut(child) {
            row[PARENT] = place.row as u32;
        }
    }
}

/// Whether a list has this link.
pub fn has(rows: &Rows, [first, count]: List, link: usize) -> bool {
    let start = first.get(rows) as usize;
    (start..start + count.get(rows) as usize).contains(&link)
}

/// Takes a link away. Its list is one shorter, and the others begin where they should.
pub fn drop_link(rows: &mut Rows, link: usize) {
    for list in lists(rows) {
        if has(rows, list, link) {
            let count = list[1].get(rows);
            list[1].set(rows, count - 1);
        }
    }
    relink(rows, |first| first - (first as usize > link) as u32);
    rows.links.remove(link);
}

/// Puts a link before another one; it belongs to that one's list, or to none.
pub fn insert_link(rows: &mut Rows, link: usize, numbers: [u32; 3], belongs: bool) {
    let list = lists(rows).into_iter().find(|list| has(rows, *list, link));
    let start = list.map_or(link, |list| list[0].get(rows) as usize);
    match list {
        Some(list) if belongs => {
            let count = list[1].get(rows);
            list[1].set(rows, count.saturating_add(1));
            relink(rows, |first| first.saturating_add((first as usize > start) as u32));
            rows.links.insert(link, numbers);
        }
        _ => {
            relink(rows, |first| first.saturating_add((first as usize >= start) as u32));
            rows.links.insert(start, numbers);
        }
    }
}
