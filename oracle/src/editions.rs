//! Cases with an edition (request L14): those that are written down, and for each case of a run an edition, mostly the one that
//! is asked for, now and then the other or a number that names none.
use crate::{
    answer::LIMIT,
    beside::{FAULTS, faulty, for_case, right_and_wrong, spoil},
    builtins::{Builtins, MAX_NAMES},
    case::Case,
    corners,
    drawn::{Cases, mangled},
    list::script,
    random::Random,
    rooms::{EDITION_HEAD, Known, LARGEST, Lent},
    terms::{Call, FIRST, SECOND, Terms},
    tight::{limit, settings},
};

/// What stands beside the cases of a run: rooms with a row for each token and no names, rooms that tell, or names, too.
#[derive(Clone, Copy, PartialEq, Eq, PartialOrd, Ord)]
pub enum Sort {
    Plain,
    Tight,
    Named,
}

/// Numbers that name no edition.
pub const WRONG: [u32; 10] = [0, 3, 4, 255, 256, 257, 258, 0x0200_0000, 0x8000_0001, u32::MAX];

/// The frames of a run, always the same for a seed: the corners, and then each case of `Cases`.
pub fn frames(edition: u32, seed: u64, sort: Sort) -> impl Iterator<Item = Vec<u8>> + Send {
    let cases = [FIRST, SECOND].map(|edition| Cases::of(edition, seed));
    let drawn = (0..).flat_map(move |index| {
        let random = &mut Random::of(seed.rotate_left(16), index);
        let named = named(edition, random);
        // scripts of edition 2 are read in edition 1, too
        let written = if random.once_in(4) { FIRST } else { SECOND };
        let input = match random.once_in(12) {
            true => mangled(written, random).encode(),
            false => cases[(written - 1) as usize].get(index),
        };
        of_input(false, named, input, sort, random)
    });
    let corners = corners(sort).into_iter();
    corners.map(|lent| lent.encode()).chain(broken()).chain(drawn.map(|lent| lent.encode()))
}

/// Mostly this edition, now and then the other or a number that names none.
pub fn named(edition: u32, random: &mut Random) -> u32 {
    match random.below(20) {
        0 => random.pick(&WRONG),
        1..5 => FIRST + SECOND - edition,
        _ => edition,
    }
}

/// An input, as a script or as a guard, beside names and in rooms of this sort.
pub fn of_input(is_guard: bool, edition: u32, input: Vec<u8>, sort: Sort, random: &mut Random) -> Vec<Lent> {
    let Some(case) = Case::decode(&input) else {
        let rooms = LARGEST.map(|largest| random.below(largest as usize) as u32);
        return vec![Lent {
            is_guard,
            edition: Some(edition),
            names: Some(Builtins::default()),
            limit: LIMIT,
            rooms,
            input,
        }];
    };
    let mut names = Builtins::default();
    if sort == Sort::Named {
        names = for_case(&case, MAX_NAMES, random);
        if random.once_in(6) {
            spoil(&mut names, random);
        }
    }
    let read_in = if edition == FIRST { FIRST } else { SECOND };
    let call = |edition, limit| Call { is_guard, terms: Terms { edition, limit } };
    let limit = limit(&case, call(read_in, LIMIT), random);
    let mut calls = in_rooms(names, case, call(edition, limit), sort, random);
    if edition != read_in {
        calls.retain(|_| random.once_in(4)); // all are refused alike
    }
    calls
}

/// A case beside names in the rooms of this sort.
pub fn in_rooms(
    names: Builtins,
    case: Case,
    call: impl Into<Call>,
    sort: Sort,
    random: &mut Random,
) -> Vec<Lent> {
    let known = Known::beside(names, case, call);
    let rooms = if sort == Sort::Plain { vec![known.ample()] } else { settings(&known, random) };
    rooms.into_iter().map(|rooms| known.lent_all(rooms)).collect()
}

/// The frames that are written down: scripts that tell the editions apart, in both and with small limits; each number that
/// names no edition beside all other faults; and heads that are broken.
fn corners(sort: Sort) -> Vec<Lent> {
    let random = &mut Random::of(0, 0);
    let mut calls = Vec::new();
    for case in corners::editions() {
        for edition in [SECOND, FIRST] {
            for limit in [LIMIT, 1, 2, 3, 4] {
                let terms = Terms { edition, limit };
                calls.extend(in_rooms(Builtins::default(), case.clone(), terms, sort, random));
            }
        }
    }
    for edition in [FIRST, SECOND].into_iter().chain(WRONG) {
        for names in right_and_wrong() {
            let call = |faults| Lent { edition: Some(edition), ..faulty(&names, faults) };
            calls.extend((0..1 << FAULTS).map(call));
        }
    }
    calls
}

/// Frames that end too early.
fn broken() -> impl Iterator<Item = Vec<u8>> {
    let [names, ..] = right_and_wrong();
    cut_short(&Lent { edition: Some(SECOND), ..faulty(&names, 0) })
}

/// Parts of a frame with an edition.
pub fn cut_short(lent: &Lent) -> impl Iterator<Item = Vec<u8>> + use<> {
    let (whole, names) = (lent.encode(), lent.names.clone().unwrap_or_default());
    let to_input = EDITION_HEAD + names.text.len() + 4 * names.rows.len();
    let head = [2, 5, 6, 21, 22, 25, 26, EDITION_HEAD - 1, EDITION_HEAD, EDITION_HEAD + 1];
    let lengths = head.into_iter().chain([to_input - 1, to_input, whole.len() - 1]);
    lengths.map(move |length| whole[..length].to_vec())
}

/// A smaller choice of them, for the fixed list: the scripts in both editions, the smallest limits that they pass and do not,
/// and each number that names no edition, alone and beside each other fault.
pub fn chosen() -> Vec<Vec<u8>> {
    let mut calls = Vec::new();
    for case in corners::editions() {
        for edition in [SECOND, FIRST] {
            let known = Known::of(case.clone(), Terms { edition, limit: LIMIT });
            calls.push(known.lent_all(known.fitting(known.asked().len())));
        }
    }
    for text in ["not a;", "not not a;", "{return}", "{return a}", "((a)(b))(c);", "not (a)(not b);"] {
        for limit in 1..=4 {
            let known = Known::of(script(text), Terms { edition: SECOND, limit });
            calls.push(known.lent_all(known.ample()));
        }
    }
    let [right, wrong] = right_and_wrong();
    for edition in WRONG {
        calls.push(Lent { edition: Some(edition), ..faulty(&right, 0) });
    }
    for fault in 0..FAULTS {
        calls.push(Lent { edition: Some(0), ..faulty(&right, 1 << fault) });
        calls.push(Lent { edition: Some(3), ..faulty(&wrong, 1 << fault) });
    }
    calls.iter().map(Lent::encode).chain(broken()).collect()
}
