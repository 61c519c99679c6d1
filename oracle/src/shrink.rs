//! Makes an input, or the built-in names beside it, a row set, a station's call, or a choice of statements smaller for as long as something stays true of it.
use std::collections::BTreeSet;

use crate::{
    builtins::Builtins,
    case::Case,
    drops::{Dropping, MOST_CHOSEN},
    loads::{ANSWER, Load},
    rows::{PARENT, Rows},
    slots::{drop_link, places, renumber, row},
    verdicts::RowSet,
};

/// The tries after which it is taken as it is.
const TRIES: usize = 3_000;

pub fn shrunk(input: Vec<u8>, mut stays: impl FnMut(&[u8]) -> bool) -> Vec<u8> {
    let mut search = Search { least: input, stays: |input: &Vec<u8>| stays(input), tries: 0 };
    while search.pass() {}
    search.least
}

/// Rows are dropped, and then text.
pub fn shrunk_names(names: Builtins, stays: impl FnMut(&Builtins) -> bool) -> Builtins {
    let (rows, bytes) = (names.rows.len(), names.text.len());
    let mut search = Search { least: names, stays, tries: 0 };
    search.drop_parts(rows.div_ceil(2), |names, from, count| {
        let mut names = names.clone();
        let to = names.rows.len().min(2 * (from + count));
        names.rows.drain(2 * from..to);
        Some(names)
    });
    search.drop_parts(bytes, |names, from, count| {
        let mut names = names.clone();
        names.text.drain(from..from + count);
        names.rows.iter_mut().for_each(|offset| *offset = moved(*offset, from, count));
        Some(names)
    });
    search.least
}

/// Rows are dropped, with their links and without, then links, symbols and numbers that are left over; and then numbers become 0.
pub fn shrunk_set(set: RowSet, stays: impl FnMut(&RowSet) -> bool) -> RowSet {
    let mut search = Search { least: set, stays, tries: 0 };
    loop {
        let before = search.least.encode().len();
        search.drop_rows(0, without_nodes);
        search.drop_rows(0, |rows, from, count| {
            rows.nodes.drain(from..from + count);
            move_down(rows, from, count);
        });
        search.drop_rows(1, |rows, from, count| {
            (from..from + count).rev().for_each(|link| drop_link(rows, link));
        });
        search.drop_rows(2, |rows, from, count| drop(rows.symbols.drain(from..from + count)));
        search.drop_left_over();
        if search.least.encode().len() == before {
            break;
        }
    }
    search.clear();
    search.least
}

/// Scripts are dropped, with their parts, and then the built-in names and what is left over.
pub fn shrunk_load(load: Load, stays: impl FnMut(&Load) -> bool) -> Load {
    let count = load.count();
    let mut search = Search { least: load, stays, tries: 0 };
    if search.least.faults().is_empty() {
        search.drop_parts(count, |load, from, count| Some(without_scripts(load, from, count)));
        search.drop_parts(1, |load, _, _| Some(without_left_over(load)));
    }
    search.drop_parts(1, |load, _, _| Some(Load { names: Builtins::default(), ..load.clone() }));
    search.least
}

/// Its row set is made smaller. Scratch keeps what it has more or less than is needed, and a choice that fits goes on fitting.
pub fn shrunk_dropping(call: Dropping, mut stays: impl FnMut(&Dropping) -> bool) -> Dropping {
    let more = |set: &RowSet| set.counts[0].saturating_add(set.counts[2]);
    let fits = call.statements() == Some(call.choice.len());
    let with = |set: &RowSet| {
        let mut smaller = Dropping { set: set.clone(), ..call.clone() };
        smaller.set.scratch = set.scratch.saturating_add(more(set)).min(call.set.scratch);
        if let (true, Some(count @ ..MOST_CHOSEN)) = (fits, smaller.statements()) {
            smaller.choice.resize(count, 1);
        }
        smaller
    };
    let mut set = call.set.clone();
    set.scratch = set.scratch.saturating_sub(more(&set));
    if !stays(&with(&set)) {
        return call;
    }
    with(&shrunk_set(set, |set| stays(&with(set))))
}

/// Without these scripts, their answers and their parts.
fn without_scripts(load: &Load, from: usize, count: usize) -> Load {
    let mut load = load.clone();
    let scripts = load.scripts();
    let [first_text, first_list] = scripts[from].clone();
    let [last_text, last_list] = scripts[from + count - 1].clone();
    load.text.drain(first_text.start..last_text.end);
    load.list.drain(first_list.start..last_list.end);
    load.cuts.drain(2 * from..2 * (from + count));
    let dropped = [last_text.end - first_text.start, last_list.end - first_list.start];
    for ends in load.cuts[2 * from..].as_chunks_mut::<2>().0 {
        ends.iter_mut().zip(dropped).for_each(|(end, less)| *end -= less as u32);
    }
    let parts = load.parts();
    load.rooms.iter_mut().zip(parts).for_each(|(room, part)| *room -= part * count as u32);
    load.answers -= (ANSWER * count) as u32;
    load
}

/// Without what stands behind the last cuts and behind the parts.
fn without_left_over(load: &Load) -> Load {
    let mut load = load.clone();
    let count = load.count() as u32;
    if let Some([text, list]) = load.scripts().pop() {
        load.text.truncate(text.end);
        load.list.truncate(list.end);
    }
    load.rooms = load.parts().map(|part| part * count);
    load.answers = ANSWER as u32 * count;
    load
}

/// Without these rows, their links and the links that name them; a row that names one of them itself becomes a Nil.
fn without_nodes(rows: &mut Rows, from: usize, count: usize) {
    let dropped = from..from + count;
    let mut links = BTreeSet::new();
    for place in places(rows) {
        let names = place.names_a_row() && dropped.contains(&(place.get(rows) as usize));
        match place.link {
            Some(link) if names || dropped.contains(&place.row) => drop(links.insert(link)),
            None if names => {
                let parent = rows.nodes[place.row][PARENT];
                rows.nodes[place.row] = row(14, &[]);
                rows.nodes[place.row][PARENT] = parent;
            }
            _ => {}
        }
    }
    links.into_iter().rev().for_each(|link| drop_link(rows, link));
    rows.nodes.drain(dropped);
    move_down(rows, from, count);
}

/// The rows behind those that were dropped have other numbers.
fn move_down(rows: &mut Rows, from: usize, count: usize) {
    renumber(rows, |number| number - if number as usize >= from + count { count as u32 } else { 0 });
}

struct Search<T, F> {
    least: T,
    stays: F,
    tries: usize,
}

impl<F: FnMut(&Vec<u8>) -> bool> Search<Vec<u8>, F> {
    /// Drops what can be dropped: tokens, then text; of broken records, bytes. True if anything was.
    fn pass(&mut self) -> bool {
        let before = self.least.len();
        match Case::decode(&self.least) {
            Some(case) => {
                self.drop_parts(case.tokens.len(), |input, from, count| {
                    let mut case = Case::decode(input)?;
                    case.tokens.drain(from..from + count);
                    Some(case.encode())
                });
                self.drop_parts(case.text.len(), |input, from, count| {
                    Some(without_text(Case::decode(input)?, from, count).encode())
                });
            }
            None => self.drop_parts(self.least.len(), |input, from, count| {
                Some([&input[..from], &input[from + count..]].concat())
            }),
        }
        self.least.len() < before
    }
}

impl<T, F: FnMut(&T) -> bool> Search<T, F> {
    /// Tries to drop parts of a sequence, large ones first, from its end to its start.
    fn drop_parts(&mut self, length: usize, without: impl Fn(&T, usize, usize) -> Option<T>) {
        let mut length = length;
        let mut count = length.div_ceil(2);
        while count > 0 {
            let mut from = length;
            while from > 0 && self.tries < TRIES {
                let part = count.min(from);
                from -= part;
                let Some(smaller) = without(&self.least, from, part) else { return };
                self.tries += 1;
                if (self.stays)(&smaller) {
                    self.least = smaller;
                    length -= part;
                }
            }
            count /= 2;
        }
    }
}

impl<F: FnMut(&RowSet) -> bool> Search<RowSet, F> {
    /// Drops rows of this room, where the rooms have all that are counted. What is left over stays.
    fn drop_rows(&mut self, room: usize, without: impl Fn(&mut Rows, usize, usize)) {
        self.drop_parts(self.least.counts[room] as usize, |set, from, count| {
            let mut rows = set.rows()?;
            let need = RowSet::of(set.edition, &rows);
            without(&mut rows, from, count);
            let mut smaller = RowSet::of(set.edition, &rows);
            for room in 0..3 {
                smaller.rooms[room].extend(&set.rooms[room][need.rooms[room].len()..]);
            }
            smaller.scratch = (smaller.scratch + set.scratch).saturating_sub(need.scratch);
            Some(smaller)
        });
    }

    /// Drops numbers at the end of each room.
    fn drop_left_over(&mut self) {
        for room in 0..3 {
            self.drop_parts(self.least.rooms[room].len(), |set, from, count| {
                let mut set = set.clone();
                let is_end = from + count == set.rooms[room].len();
                set.rooms[room].truncate(from);
                is_end.then_some(set)
            });
        }
        self.drop_parts(self.least.scratch as usize, |set, _, count| {
            Some(RowSet { scratch: set.scratch - count as u32, ..set.clone() })
        });
    }

    /// Makes each number 0 that can be.
    fn clear(&mut self) {
        for room in 0..3 {
            for place in 0..self.least.rooms[room].len() {
                let mut cleared = self.least.clone();
                cleared.rooms[room][place] = 0;
                if cleared != self.least && self.tries < TRIES {
                    self.tries += 1;
                    if (self.stays)(&cleared) {
                        self.least = cleared;
                    }
                }
            }
        }
    }
}

/// The case with a part of its text cut out; spans move along.
fn without_text(mut case: Case, from: usize, count: usize) -> Case {
    case.text.drain(from..from + count);
    for token in &mut case.tokens {
        token.start = moved(token.start, from, count);
        token.end = moved(token.end, from, count);
    }
    case
}

/// Where an offset comes to lie when a part of the text is cut out.
fn moved(offset: u32, from: usize, count: usize) -> u32 {
    let (from, count) = (from as u32, count as u32);
    if offset <= from { offset } else { offset.saturating_sub(count).max(from) }
}
