//! Guards (request L9): those that are written down, and the frames of a run, in the rooms, beside the names and with the editions
//! that scripts have.
use crate::{
    answer::LIMIT,
    beside::{FAULTS, faulty_script, right_and_wrong},
    builtins::Builtins,
    corners,
    drawn::{Cases, mangled_guard},
    editions::{self, Sort, cut_short, in_rooms, named, of_input},
    list::script,
    random::Random,
    rooms::{Known, Lent},
    terms::{Call, FIRST, SECOND, Terms},
    tight::{Comes::*, Ladder, rooms_of},
};

/// Guards in rooms of so many rows: as of a script, without a root.
#[rustfmt::skip]
pub const LADDERS: &[Ladder] = &[
    // a symbol at its name, a row at the next token, here at Eof
    ("a", 64, &[([0, 0, 0], Short(0)), ([9, 9, 0], Short(0)), ([0, 0, 1], Short(1)), ([1, 0, 1], Accepted)]),
    ("1", 64, &[([0, 0, 0], Short(1)), ([1, 0, 0], Accepted)]),
    ("\"a\" == a", 64, &[([9, 9, 0], Short(0)), ([0, 0, 1], Short(1)), ([1, 0, 1], Short(3)), ([2, 0, 1], Short(3)), ([3, 0, 1], Accepted)]),
    ("f(a)", 64, &[
        ([0, 0, 0], Short(0)), ([0, 0, 1], Short(1)), ([1, 0, 1], Short(2)), ([1, 0, 2], Short(3)),
        ([2, 0, 2], Short(4)), ([2, 1, 2], Short(4)), ([3, 0, 2], Short(4)), ([3, 1, 2], Accepted),
    ]),
    // nothing is asked for where nothing is whole
    ("", 64, &[([0, 0, 0], Refused(9, 0, 255))]),
    ("for", 64, &[([0, 0, 0], Refused(9, 0, 255))]),
    ("+ )", 64, &[([0, 0, 0], Refused(9, 1, 255))]),
    // at one token: a row, then 8; and 11, then a symbol
    ("a;", 64, &[([0, 0, 0], Short(0)), ([0, 0, 1], Short(1)), ([1, 0, 1], Refused(8, 1, 44))]),
    ("a b", 64, &[([0, 0, 1], Short(1)), ([1, 0, 1], Refused(8, 1, 44))]),
    ("a b", 1, &[([0, 0, 1], Short(1)), ([1, 0, 1], Refused(8, 1, 44))]),
    ("(a", 64, &[([0, 0, 1], Short(2)), ([1, 0, 1], Refused(8, 2, 18))]),
    ("f(a", 64, &[([1, 0, 2], Short(3)), ([2, 0, 2], Refused(8, 3, 13))]),
    ("f(a,", 64, &[([1, 0, 2], Short(3)), ([2, 0, 2], Refused(8, 4, 18))]),
    ("a +", 64, &[([0, 0, 1], Short(1)), ([1, 0, 1], Refused(9, 2, 255))]),
    ("a + -b", 1, &[([0, 0, 1], Short(1)), ([1, 0, 1], Refused(11, 2, 255))]),
    ("(a)", 1, &[([0, 0, 0], Refused(11, 1, 255))]),
    // parentheses and `+` are no node; what ends with a `)` is met after it
    ("(a)", 64, &[([0, 0, 1], Short(2)), ([1, 0, 1], Accepted)]),
    ("+a", 64, &[([0, 0, 1], Short(2)), ([1, 0, 1], Accepted)]),
    ("a + (b)", 64, &[([2, 0, 2], Short(5)), ([3, 0, 2], Accepted)]),
    ("not a", 64, &[([1, 0, 1], Short(2)), ([2, 0, 1], Accepted)]),
    ("a.b", 64, &[([1, 0, 1], Short(2)), ([1, 0, 2], Short(3)), ([2, 0, 2], Accepted)]),
];

/// What is wrong with a guard alone: nothing, what reading refuses, a token outside the profile, and both.
pub const WRONG: [&str; 4] = ["a", "a;", "a |", "a; |"];

/// The frames of a run, always the same for a seed: the corners, and then each case of `Cases::guards`. Without an edition all are
/// of edition 1.
pub fn frames(edition: Option<u32>, seed: u64, sort: Sort) -> impl Iterator<Item = Vec<u8>> + Send {
    let cases = [FIRST, SECOND].map(|edition| Cases::guards(edition, seed));
    let drawn = (0..).flat_map(move |index| {
        let random = &mut Random::of(seed.rotate_left(48), index);
        let read_in = edition.map_or(FIRST, |edition| named(edition, random));
        // what is written for one edition is read in the other, too
        let own = edition.unwrap_or(FIRST);
        let written = if random.once_in(4) { FIRST + SECOND - own } else { own };
        let input = match random.once_in(12) {
            true => mangled_guard(written, random).encode(),
            false => cases[(written - 1) as usize].get(index),
        };
        of_input(true, read_in, input, sort, random)
    });
    let corners = corners(edition, sort).into_iter();
    let broken = cut_short(&faulty(FIRST, "a", &names_of(sort)[0], 0));
    corners.map(|lent| lent.encode()).chain(broken).chain(drawn.map(|lent| lent.encode()))
}

/// The frames that are written down: guards with small limits, and in the rooms of `LADDERS`; and all that can be wrong with a call.
fn corners(edition: Option<u32>, sort: Sort) -> Vec<Lent> {
    let random = &mut Random::of(0, 0);
    let mut calls = Vec::new();
    let right = if edition.is_some() { vec![FIRST, SECOND] } else { vec![FIRST] };
    for edition in &right {
        let call = |limit| Call::guard(Terms { edition: *edition, limit });
        for case in corners::guards() {
            for limit in [LIMIT, 1, 2, 3, 4] {
                calls.extend(in_rooms(Builtins::default(), case.clone(), call(limit), sort, random));
            }
        }
        for (text, limit, steps) in LADDERS.iter().filter(|_| sort != Sort::Plain) {
            let known = Known::of(script(text), call(*limit));
            calls.extend(steps.iter().map(|(rows, _)| known.lent_all(rooms_of(&script(text), *rows))));
        }
    }
    let wrong = if edition.is_some() { &editions::WRONG[..] } else { &[] };
    for edition in right.iter().chain(wrong) {
        for names in &names_of(sort) {
            calls.extend(
                WRONG.iter().flat_map(|text| {
                    (0..1 << (FAULTS - 1)).map(|faults| faulty(*edition, text, names, faults))
                }),
            );
        }
    }
    calls
}

/// A smaller choice of them, for the fixed list: each guard that is written down in both editions, in the rooms that it asks for; the rooms of
/// `LADDERS`; and each fault of the door alone beside what is wrong with a guard.
pub fn chosen() -> Vec<Vec<u8>> {
    let mut calls = Vec::new();
    for edition in [FIRST, SECOND] {
        let call = |limit| Call::guard(Terms { edition, limit });
        for case in corners::guards().into_iter().step_by(2) {
            let known = Known::of(case, call(LIMIT));
            calls.push(known.lent_all(known.fitting(known.asked().len())));
        }
    }
    for (text, limit, steps) in LADDERS {
        let known = Known::of(script(text), Call::guard(*limit));
        calls.extend(steps.iter().map(|(rows, _)| known.lent_all(rooms_of(&script(text), *rows))));
    }
    for text in WRONG {
        calls.push(faulty(FIRST, text, &Builtins::default(), 0));
        calls.extend((0..FAULTS - 1).map(|fault| faulty(FIRST, text, &Builtins::default(), 1 << fault)));
        calls.push(faulty(editions::WRONG[0], text, &Builtins::default(), 0));
    }
    calls.iter().map(Lent::encode).collect()
}

/// What stands beside all that can be wrong: right and wrong names, or none.
fn names_of(sort: Sort) -> Vec<Builtins> {
    if sort == Sort::Named { right_and_wrong().into() } else { vec![Builtins::default()] }
}

/// A guard with these names, and those of the door's faults whose bits are set.
pub fn faulty(edition: u32, text: &str, names: &Builtins, faults: usize) -> Lent {
    Lent { is_guard: true, edition: Some(edition), ..faulty_script(text, names, faults) }
}
