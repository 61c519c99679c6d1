//! Cases in rooms of chosen sizes: those that are written down, and for each case of a run the rooms that tell.
use std::{array::from_fn, collections::HashSet};

use crate::{
    answer::LIMIT,
    builtins::Builtins,
    case::Case,
    door,
    drawn::Cases,
    judge,
    kinds::EOF,
    list::script,
    random::Random,
    rooms::{Known, LARGEST, Lent, Rooms, SCRATCH, SYMBOLS, WIDTHS},
    terms::Call,
};

/// What comes of a script in rooms of so many node, link and symbol rows.
#[derive(Clone, Copy, PartialEq, Eq, Debug)]
pub enum Comes {
    Accepted,
    /// Refusal 4 at a token.
    Short(u32),
    /// Another refusal: code, token, required kind.
    Refused(u32, u32, u32),
}

/// A script, its limit, and what comes of it in rooms of so many rows.
pub type Ladder = (&'static str, u32, &'static [([u32; 3], Comes)]);

use Comes::*;

/// The corners of request L6.
#[rustfmt::skip]
pub const LADDERS: &[Ladder] = &[
    // the root's row at Eof
    ("", 64, &[([0, 0, 0], Short(0)), ([1, 0, 0], Accepted)]),
    // a symbol at its name, a row at the next token, a call's link and row after its `)`, the root's at Eof
    ("f(a);", 64, &[
        ([0, 0, 0], Short(0)), ([0, 0, 1], Short(1)), ([1, 0, 1], Short(2)), ([1, 0, 2], Short(3)),
        ([2, 0, 2], Short(4)), ([2, 1, 2], Short(4)), ([3, 1, 2], Short(5)), ([3, 2, 2], Short(5)),
        ([4, 2, 2], Accepted),
    ]),
    // a string's symbol; a known one takes no row
    ("\"a\"; a;", 64, &[([9, 9, 0], Short(0)), ([3, 2, 1], Accepted)]),
    ("a; \"a\";", 64, &[([9, 9, 0], Short(0)), ([3, 2, 1], Accepted)]),
    // at one token: a row, then 11, then a symbol
    ("{} +a;", 1, &[([0, 0, 0], Short(2)), ([1, 0, 0], Refused(11, 2, 255))]),
    ("(a);", 1, &[([0, 0, 0], Refused(11, 1, 255))]),
    // a row, then 8, 9 and 10
    ("a b", 64, &[([0, 0, 1], Short(1)), ([1, 0, 1], Refused(8, 1, 41))]),
    ("{} )", 64, &[([0, 0, 0], Short(2)), ([1, 0, 0], Refused(9, 2, 255))]),
    ("{} for", 64, &[([0, 0, 0], Short(2)), ([1, 0, 0], Refused(10, 2, 255))]),
    ("f(a", 64, &[([1, 0, 2], Short(3)), ([2, 0, 2], Refused(8, 3, 13))]),
    // what is not read as a name has no symbol
    ("let 1", 64, &[([0, 0, 0], Refused(8, 1, 43))]),
    ("a \"b\"", 64, &[([1, 0, 1], Refused(8, 1, 41))]),
    // parentheses are no node, nor is a `+`; what ends with one is met after it
    ("(a);", 64, &[([0, 0, 1], Short(2))]),
    ("+a;", 64, &[([0, 0, 1], Short(2)), ([1, 0, 1], Short(3)), ([2, 1, 1], Accepted)]),
    ("a+(b);", 64, &[([2, 0, 2], Short(5))]),
    // a tighter operator's row, before the next operand's symbol
    ("a * b + c;", 64, &[([2, 0, 2], Short(3)), ([3, 0, 2], Short(4))]),
    // names are met one by one, and become links with their node
    ("fun f(x) {} y;", 64, &[
        ([0, 0, 0], Short(1)), ([0, 0, 1], Short(3)), ([0, 0, 2], Short(7)), ([1, 0, 2], Short(7)),
        ([1, 1, 2], Short(7)), ([2, 1, 2], Short(7)), ([2, 1, 3], Short(8)),
    ]),
    ("|x| y;", 64, &[
        ([0, 0, 0], Short(1)), ([0, 0, 1], Short(3)), ([0, 0, 2], Short(4)), ([1, 0, 2], Short(4)),
        ([1, 1, 2], Short(4)),
    ]),
    ("a.b;", 64, &[([1, 0, 1], Short(2)), ([1, 0, 2], Short(3)), ([2, 0, 2], Short(4))]),
    ("let x = 1;", 64, &[([0, 0, 0], Short(1)), ([0, 0, 1], Short(4)), ([1, 0, 1], Short(4))]),
    // a tail is no link, a map's entry is one, an empty list has none
    ("{ a }", 64, &[([2, 0, 1], Short(3)), ([3, 0, 1], Short(3)), ([3, 1, 1], Accepted)]),
    ("#{a: b};", 64, &[([2, 0, 2], Short(6)), ([2, 1, 2], Short(6)), ([4, 2, 2], Accepted)]),
    ("f();", 64, &[([1, 0, 1], Short(3)), ([2, 0, 1], Short(4)), ([3, 1, 1], Accepted)]),
    // an `if` without `else`: at the token where its block's row is met, and the next symbol
    ("if a {} b;", 64, &[([1, 0, 1], Short(4)), ([2, 0, 1], Short(4)), ([3, 0, 1], Short(4)), ([3, 0, 2], Short(5))]),
    ("{} a;", 64, &[([0, 0, 0], Short(2)), ([1, 0, 0], Short(2))]),
    // an import that Eof stops is whole, and one that a missing comma stops is not
    ("import", 64, &[([0, 0, 0], Short(1)), ([1, 0, 0], Refused(8, 1, 41))]),
    ("import a.", 64, &[([0, 0, 1], Short(3)), ([0, 1, 1], Short(3)), ([1, 1, 1], Refused(8, 3, 41))]),
    ("import a: b,", 64, &[([0, 1, 2], Short(5)), ([0, 2, 2], Short(5)), ([1, 2, 2], Refused(8, 5, 41))]),
    ("import a: b", 64, &[([0, 0, 2], Refused(8, 4, 13))]),
];

/// What may be whole where a token stands, and what may stand there: a row that is due, and an opening, a symbol or a
/// refusal.
#[rustfmt::skip]
const ENDS: &[&str] = &[
    "{}", "{a}", "{a;}", "if a {}", "if a {} else {}", "while a {}", "fun f(x) {}", "{} {}", "a", "1", "\"s\"",
    "f(a)", "a.b", "#{a}", "(a)", "-a", "|x| x", "|x| {}", "not a", "a + b", "let x = 1", "return a", "break",
    "import a", "import a: b", "a = b", "f(a",
];
#[rustfmt::skip]
const NEXTS: &[&str] = &[
    "+a;", "-a;", "^a;", "for", ")", "b;", "\"b\";", "1", "(b);", "{b}", "if b {}", "let b = 1;", "import b;", ";",
    "}", "", "=", "= b;", ", b", ".b;", ".1", "not b;", "|b| b;", "* b;", "else {b}",
];

/// Scripts of two parts, with a limit each: at the root, and in a block whose limit leaves one opening.
fn joints() -> impl Iterator<Item = (Case, u32)> {
    let pairs = ENDS.iter().flat_map(|end| NEXTS.iter().map(move |next| format!("{end} {next}")));
    pairs.flat_map(|pair| {
        let inside = format!("{{ {pair}");
        [(script(&pair), LIMIT), (script(&pair), 1), (script(&inside), 2)]
    })
}

/// Rooms of so many node, link and symbol rows, with a scratch row for each token.
pub fn rooms_of(case: &Case, [nodes, links, symbols]: [u32; 3]) -> Rooms {
    let rows = [nodes, links, symbols, case.tokens.len() as u32];
    from_fn(|room| WIDTHS[room] * rows[room])
}

/// The frames that are written down.
pub fn corners() -> Vec<Vec<u8>> {
    let mut frames = Vec::new();
    let mut add = |limit: u32, rooms: Rooms, case: &Case| {
        frames.push(Known::of(case.clone(), limit).lent(rooms).encode());
    };
    for (text, limit, steps) in LADDERS {
        let case = script(text);
        steps.iter().for_each(|(rows, _)| add(*limit, rooms_of(&case, *rows), &case));
    }
    let case = script("a;");
    // just enough, numbers left over, and a number too few
    for rooms in [[20, 3, 2, 9], [29, 5, 3, 11], [19, 5, 3, 9], [20, 2, 2, 9], [20, 3, 1, 9]] {
        add(LIMIT, rooms, &case);
    }
    // 4 at the door: after 1 and 3, before 5 to 7; and with the numbers of a 4 in reading
    let eof = script("");
    let none = Case::default();
    let others = at_door();
    for scratch in [0, 8] {
        add(LIMIT, [20, 3, 2, scratch], &case);
        add(0, [20, 3, 2, scratch], &case);
        add(LIMIT, [20, 3, 2, scratch], &none);
        others.iter().for_each(|case| add(LIMIT, [0, 0, 0, scratch], case));
    }
    others.iter().for_each(|case| add(LIMIT, [0, 3, 2, 9], case));
    for scratch in [2, 3] {
        add(LIMIT, [9, 4, 3, scratch], &eof);
    }
    // rooms larger than any; and no input, a broken one, a head that is too short
    add(LIMIT, [LARGEST[0] + 1, LARGEST[1] + 1, LARGEST[2] + 1, u32::MAX], &case);
    let whole = Known::of(case, LIMIT).lent([20, 3, 2, 9]).encode();
    frames.extend([22, 21, 2, whole.len() - 1].map(|length| whole[..length].to_vec()));
    frames
}

/// Cases of three tokens that checks 5, 6 and 7 refuse.
fn at_door() -> [Case; 3] {
    let mut cases = ["a;", "a;", "a;"].map(script);
    cases[0].text[1] = 200;
    cases[1].tokens[1].kind = EOF + 1;
    cases[2].tokens[2].kind = EOF - 1;
    cases[2].text.push(b'a');
    cases[2].tokens[2].end = 3;
    cases
}

/// The rooms that tell for a case.
pub fn settings(known: &Known, random: &mut Random) -> Vec<Rooms> {
    let (asked, ample) = (known.asked(), known.ample());
    let [least, exact] = [known.fitting(0), known.fitting(asked.len())];
    let with = |base: Rooms, room: usize, numbers: u32| -> Rooms {
        from_fn(|other| if other == room { numbers } else { base[other] })
    };

    // a row for each token; the exact need; nothing; numbers left over; anything smaller
    let mut settings = vec![ample, exact, least];
    settings.push(from_fn(|room| exact[room] + random.below(WIDTHS[room] as usize) as u32));
    let smaller = from_fn(|room| least[room] + random.below((exact[room] - least[room]) as usize + 1) as u32);
    settings.push(smaller);
    // in each room a row less, and a number less
    for room in (0..SCRATCH).filter(|room| exact[*room] > 0) {
        settings.extend([WIDTHS[room], 1].map(|less| with(exact, room, exact[room] - less)));
    }
    if !asked.is_empty() {
        // what a part of the rows needs, so that the next does not fit; and this in one room alone
        let mut part = || random.below(asked.len());
        settings.extend([known.fitting(part()), known.fitting(part())]);
        let part = part();
        let room = asked[part].row as usize;
        settings.push(with(ample, room, known.fitting(part)[room]));
    }
    // a number of scratch less
    settings.extend(exact[SCRATCH].checked_sub(1).map(|less| with(exact, SCRATCH, less)));
    // in the symbol room the rows of built-in names alone, and not even these; and no room at all
    let built_in = known.built_in();
    if built_in > 0 {
        let less = random.pick(&[1, WIDTHS[SYMBOLS], built_in]);
        settings.extend([with(ample, SYMBOLS, built_in), with(ample, SYMBOLS, built_in - less)]);
        settings.extend(random.once_in(8).then_some([0; 4]));
    }
    let mut seen = HashSet::new();
    settings.retain(|rooms| seen.insert(*rooms));
    settings
}

/// The frames of a run, always the same for a seed: the corners, and then in all rooms that tell the joints and each case
/// of `Cases`.
pub fn frames(seed: u64) -> impl Iterator<Item = Vec<u8>> + Send {
    let random = move |index| Random::of(!seed, index);
    let joints = (0..)
        .zip(joints())
        .flat_map(move |(index, (case, limit))| lent(&Known::of(case, limit), &mut random(!index)));
    let cases = Cases::new(seed);
    let drawn = (0..).flat_map(move |index| of_input(cases.get(index), &mut random(index)));
    corners().into_iter().chain(joints.chain(drawn).map(|lent| lent.encode()))
}

/// A case in all rooms that tell.
pub fn lent(known: &Known, random: &mut Random) -> Vec<Lent> {
    settings(known, random).into_iter().map(|rooms| known.lent(rooms)).collect()
}

fn of_input(input: Vec<u8>, random: &mut Random) -> Vec<Lent> {
    let Some(case) = Case::decode(&input) else {
        let rooms = LARGEST.map(|largest| random.below(largest as usize) as u32);
        return vec![Lent { is_guard: false, edition: None, names: None, limit: LIMIT, rooms, input }];
    };
    let limit = limit(&case, LIMIT.into(), random);
    lent(&Known::of(case, limit), random)
}

/// The usual limit, which this call has, one near the depth of the case, or rarely one that is refused.
pub fn limit(case: &Case, call: Call, random: &mut Random) -> u32 {
    if random.once_in(100) {
        return random.pick(&[0, LIMIT + 1, u32::MAX]);
    }
    if random.once_in(2) || door::refusal(case, call).is_some() {
        return LIMIT;
    }
    let depth = judge::read(&Builtins::default(), case, call).deepest;
    let near = [depth.saturating_sub(1), depth, depth + 1, 1 + random.below(LIMIT as usize) as u32];
    random.pick(&near).clamp(1, LIMIT)
}

/// The frames that are tried while a case is made smaller: its own rooms, those that tell, and those of every part of
/// its rows, up to some hundred.
pub fn tried(lent: &Lent) -> Vec<Vec<u8>> {
    let mut all = vec![lent.rooms];
    if let Some(case) = Case::decode(&lent.input) {
        let known = Known::beside(lent.names.clone().unwrap_or_default(), case, lent.call());
        all.extend(settings(&known, &mut Random::of(0, 0)));
        all.extend((0..known.asked().len()).take(100).map(|rows| known.fitting(rows)));
    }
    all.into_iter().map(|rooms| Lent { rooms, ..lent.clone() }.encode()).collect()
}
