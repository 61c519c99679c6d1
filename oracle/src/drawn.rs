//! The cases of a run: case `index` of `seed` is always the same. Those of edition 2 are other ones than those of edition 1, and
//! those of guards (request L9) than those of scripts.
use crate::{
    case::{Case, MAX_TEXT, MAX_TOKENS, Token},
    corners::{self, EDITIONS, RULES, SAMPLES},
    kinds::{EOF, OUTSIDE},
    list::{self, Gaps, Word, printed, words},
    random::Random,
    scripts::{any_word, any_words, expression, script, script_of},
    terms::{FIRST, SECOND},
};

pub struct Cases {
    edition: u32,
    is_guard: bool,
    seed: u64,
    corners: Vec<Vec<u8>>,
}

/// How many lists there are of 1 to 3 kinds before Eof.
const SHORT_LISTS: u64 = 44 + 44 * 44 + 44 * 44 * 44;

impl Cases {
    pub fn new(seed: u64) -> Cases {
        Cases::of(FIRST, seed)
    }

    pub fn of(edition: u32, seed: u64) -> Cases {
        use corners::{at_door, at_limit, each_kind, editions, nested, scripts};
        let own = if edition == SECOND { editions() } else { Vec::new() };
        let cases = [own, scripts(), at_door(), each_kind(), nested(), at_limit()].concat();
        let mut corners: Vec<_> = cases.iter().map(Case::encode).collect();
        corners.extend(corners::broken());
        corners.extend(corners::at_sizes());
        Cases { edition, is_guard: false, seed, corners }
    }

    /// Those of guards: among the corners are whole scripts, too.
    pub fn guards(edition: u32, seed: u64) -> Cases {
        let cases = [corners::guards(), corners::outside(), corners::nested_guards()].concat();
        let mut corners: Vec<_> = cases.iter().map(Case::encode).collect();
        corners.extend(Cases::of(edition, seed).corners);
        Cases { edition, is_guard: true, seed, corners }
    }

    /// First the corners; then every third case is a short list, until there are no more of them.
    pub fn get(&self, index: u64) -> Vec<u8> {
        if let Some(corner) = self.corners.get(index as usize) {
            return corner.clone();
        }
        let index = index - self.corners.len() as u64;
        if index % 3 == 0 && index / 3 < SHORT_LISTS {
            return short_list(index / 3 * 31_337 % SHORT_LISTS).encode();
        }
        let input = if self.is_guard { random_guard } else { random_input };
        input(self.edition, &mut Random::of(self.seed, index))
    }
}

/// Every list of 1 to 3 kinds, each with a lexeme that fits.
fn short_list(number: u64) -> Case {
    let (mut number, mut length) = (number, 1);
    while number >= 44_u64.pow(length) {
        number -= 44_u64.pow(length);
        length += 1;
    }
    let kinds = (0..length).map(|place| (number / 44_u64.pow(place) % 44) as u8);
    let list: Vec<_> = kinds.map(Word::plain).collect();
    printed(&list, Gaps::Space, &mut Random::of(0, 0))
}

fn random_input(edition: u32, random: &mut Random) -> Vec<u8> {
    let list = match random.below(20) {
        0..8 => grown(edition, random),
        8..16 => damaged(edition, random),
        16 => {
            let count = random.between(1, 16);
            any_words(random, count)
        }
        17 => nested(edition, false, random),
        18 => return mangled(edition, random).encode(),
        _ => return broken(edition, random),
    };
    dressed(&list, random).encode()
}

/// Mostly a guard, or one that something is wrong with; now and then a script.
fn random_guard(edition: u32, random: &mut Random) -> Vec<u8> {
    let list = match random.below(40) {
        0..14 => guard(edition, random),
        14..18 => followed(edition, random),
        18..25 => faulted(guard(edition, random), random),
        25..31 => with_outside(edition, random),
        31..33 => {
            let size = random.between(1, 40);
            expression(edition, false, random, size)
        }
        33..36 => nested(edition, true, random),
        36 => return mangled_guard(edition, random).encode(),
        _ => return random_input(edition, random),
    };
    dressed(&list, random).encode()
}

/// One expression, without a token outside the profile.
fn guard(edition: u32, random: &mut Random) -> Vec<Word> {
    let size = size(random);
    let mut list = expression(edition, true, random, size);
    list.truncate(MAX_TOKENS - 1);
    list
}

/// A guard with something behind it: a `;`, another expression, or any word.
fn followed(edition: u32, random: &mut Random) -> Vec<Word> {
    let mut list = guard(edition, random);
    match random.below(4) {
        0 => list.extend(words(";")),
        1 => list.extend(words(random.pick(&[")", ",", "=", "= a", "; a", ";;", ": a", "}"]))),
        2 => {
            let size = random.between(1, 8);
            list.extend(expression(edition, true, random, size));
        }
        _ => list.push(any_word(random)),
    }
    list.truncate(MAX_TOKENS - 1);
    list
}

/// One to three tokens outside the profile in a guard, first, last or anywhere; every other time it has faults as well.
fn with_outside(edition: u32, random: &mut Random) -> Vec<Word> {
    let mut list = guard(edition, random);
    if random.once_in(2) {
        list = faulted(list, random);
    }
    list.truncate(MAX_TOKENS - 4);
    for _ in 0..random.between(1, 3) {
        let place = match random.below(4) {
            0 => 0,
            1 => list.len(),
            _ => random.below(list.len() + 1),
        };
        list.insert(place, Word::plain(random.pick(&OUTSIDE)));
    }
    list
}

fn size(random: &mut Random) -> usize {
    match random.below(20) {
        0..12 => random.between(1, 30),
        12..17 => random.between(30, 120),
        17..19 => random.between(120, 400),
        _ => random.between(400, MAX_TOKENS - 1),
    }
}

fn grown(edition: u32, random: &mut Random) -> Vec<Word> {
    if random.once_in(40) {
        return script_of(edition, random, MAX_TOKENS - 1);
    }
    let size = size(random);
    let mut list = script(edition, random, size);
    list.truncate(MAX_TOKENS - 1);
    list
}

/// A case of as many tokens as `rows` takes.
pub fn exact(index: u64) -> Case {
    let random = &mut Random::of(0, index);
    let list = script_of(FIRST, random, MAX_TOKENS - 1);
    printed(&list, Gaps::Blanks, random)
}

/// A script with one to three faults.
pub fn damaged(edition: u32, random: &mut Random) -> Vec<Word> {
    faulted(grown(edition, random), random)
}

fn faulted(mut list: Vec<Word>, random: &mut Random) -> Vec<Word> {
    for _ in 0..random.between(1, 3) {
        damage(&mut list, random);
    }
    list.truncate(MAX_TOKENS - 1);
    list
}

pub fn damage(list: &mut Vec<Word>, random: &mut Random) {
    if list.is_empty() {
        return list.push(any_word(random));
    }
    let place = random.below(list.len());
    match random.below(6) {
        0 => drop(list.remove(place)),
        1 => list.insert(place, list[place].clone()),
        2 if place > 0 => list.swap(place - 1, place),
        3 => list.truncate(place),
        4 => list.insert(place, any_word(random)),
        _ => list[place] = any_word(random),
    }
}

/// A small case, and random numbers to go with it: first the corners, then scripts or guards, often damaged.
pub fn small(is_guard: bool, edition: u32, seed: u64, index: u64) -> (Case, Random) {
    let mut random = Random::of(seed, index);
    let own = if edition == SECOND { EDITIONS } else { &[] };
    let corner = match is_guard {
        true => corners::guards().into_iter().nth(index as usize),
        false => own.iter().chain(SAMPLES).chain(RULES).nth(index as usize).map(|text| list::script(text)),
    };
    if let Some(case) = corner {
        return (case, random);
    }
    let size = random.between(1, 18);
    let mut list = match is_guard {
        true => expression(edition, true, &mut random, size),
        false => script(edition, &mut random, size),
    };
    if random.once_in(2) {
        (0..random.between(1, 2)).for_each(|_| damage(&mut list, &mut random));
    }
    list.truncate(25);
    let gaps = random.pick(&[Gaps::None, Gaps::Space, Gaps::Blanks]);
    let case = printed(&list, gaps, &mut random);
    (case, random)
}

/// Constructs inside each other: before, where the inner one stands, after.
type Form = (&'static str, Place, &'static str);

const IN_STATEMENT: &[Form] = &[
    ("{", Place::Statement, "}"),
    ("if", Place::Expression, "{}"),
    ("if a {", Place::Statement, "}"),
    ("if a {} else if b {", Place::Statement, "}"),
    ("while", Place::Expression, "{}"),
    ("while a {", Place::Statement, "}"),
    ("fun f(a) { b;", Place::Statement, "}"),
    ("let a =", Place::Expression, ";"),
    ("return", Place::Expression, ";"),
    ("a = ", Place::Expression, ""),
    ("", Place::Expression, ";"),
];
const IN_EXPRESSION: &[Form] = &[
    ("(", Place::Expression, ")"),
    ("-", Place::Expression, ""),
    ("+", Place::Expression, ""),
    ("^", Place::Expression, ""),
    ("not", Place::Expression, ""),
    ("|a|", Place::Expression, ""),
    ("|a| {", Place::Statement, "}"),
    ("f(a,", Place::Expression, ")"),
    ("#{", Place::Expression, "}"),
    ("#{a:", Place::Expression, ", b}"),
    ("{", Place::Statement, "}"),
    ("if", Place::Expression, "{}"),
    ("if a {", Place::Statement, "} else {}"),
    ("if a {} else {", Place::Statement, "}"),
    ("1 +", Place::Expression, "* 2"),
];

/// More of them in edition 2.
const IN_SECOND_STATEMENT: &[Form] = &[
    ("{ return;", Place::Statement, "}"),
    ("if not a { return } else {", Place::Statement, "}"),
    ("not", Place::Expression, "= (a).b;"),
    ("(", Place::Expression, ")(a);"),
];
const IN_SECOND_EXPRESSION: &[Form] = &[
    ("not", Place::Expression, ""),
    ("not -", Place::Expression, "and not a"),
    ("(", Place::Expression, ")(a)"),
    ("(", Place::Expression, ").b(c)()"),
    ("(a)(", Place::Expression, ")"),
    ("((a).b)(c,", Place::Expression, ",).d"),
    ("|a| { return;", Place::Statement, "}"),
];

#[derive(Clone, Copy)]
enum Place {
    Statement,
    Expression,
}

/// Constructs inside each other, around the limit.
pub fn nested(edition: u32, is_guard: bool, random: &mut Random) -> Vec<Word> {
    let (mut front, mut back) = (Vec::new(), Vec::new());
    let mut place = if is_guard { Place::Expression } else { Place::Statement };
    for _ in 0..random.between(40, 66) {
        let own = edition == SECOND && random.once_in(2);
        let forms = match place {
            Place::Statement if own => IN_SECOND_STATEMENT,
            Place::Expression if own => IN_SECOND_EXPRESSION,
            Place::Statement => IN_STATEMENT,
            Place::Expression => IN_EXPRESSION,
        };
        let (before, inner, after) = picked(forms, is_guard, random);
        front.extend(words(before));
        back.push(after);
        place = inner;
    }
    front.extend(words("a"));
    for after in back.iter().rev() {
        front.extend(words(after));
    }
    if random.once_in(4) {
        damage(&mut front, random);
    }
    front.truncate(MAX_TOKENS - 1);
    front
}

/// One of these, for a guard one that has no token outside the profile.
fn picked(forms: &[Form], is_guard: bool, random: &mut Random) -> Form {
    loop {
        let form = random.pick(forms);
        let is_outside = |word: &Word| OUTSIDE.contains(&word.kind);
        if !is_guard || ![form.0, form.2].iter().any(|text| words(text).iter().any(is_outside)) {
            return form;
        }
    }
}

/// The list as a case, with gaps and an Eof of some sort.
fn dressed(list: &[Word], random: &mut Random) -> Case {
    let gaps = random.pick(&[Gaps::None, Gaps::Space, Gaps::Blanks, Gaps::Any]);
    let mut case = printed(list, gaps, random);
    if random.once_in(20) {
        let more = random.pick(&[1, 10, MAX_TEXT]).min(MAX_TEXT - case.text.len());
        case.text.extend((0..more).map(|_| random.below(128) as u8));
        let eof = case.tokens.last_mut().expect("an Eof");
        eof.start = random.between(eof.start as usize, case.text.len()) as u32;
        eof.end = random.between(eof.start as usize, case.text.len()) as u32;
    }
    case
}

/// A case with a fault that the door sees, or perhaps not.
pub fn mangled(edition: u32, random: &mut Random) -> Case {
    let size = random.between(1, 20);
    let list = script(edition, random, size);
    mangled_list(&list, random)
}

/// A guard with such a fault, every other time any expression.
pub fn mangled_guard(edition: u32, random: &mut Random) -> Case {
    let size = random.between(1, 20);
    let is_guard = random.once_in(2);
    let list = expression(edition, is_guard, random, size);
    mangled_list(&list, random)
}

fn mangled_list(list: &[Word], random: &mut Random) -> Case {
    let mut case = dressed(list, random);
    let place = random.below(case.tokens.len());
    let near = |number: u32, random: &mut Random| match random.below(4) {
        0 => number.wrapping_add(1),
        1 => number.wrapping_sub(1),
        2 => random.below(40) as u32,
        _ => random.next() as u32,
    };
    match random.below(9) {
        0 => case.tokens[place].kind = random.below(256) as u8,
        1 => case.tokens[place].kind = random.below(45) as u8,
        2 => case.tokens[place].start = near(case.tokens[place].start, random),
        3 => case.tokens[place].end = near(case.tokens[place].end, random),
        4 => case.tokens.insert(place, Token { kind: EOF, ..case.tokens[place] }),
        5 => drop(case.tokens.pop()),
        6 => case.tokens.truncate(place),
        7 if place > 0 => case.tokens.swap(place - 1, place),
        _ if case.text.is_empty() => case.text.push(200),
        _ => {
            let byte = random.below(case.text.len());
            case.text[byte] = random.below(256) as u8;
        }
    }
    case
}

/// An input with a fault in its records, or perhaps in its text.
fn broken(edition: u32, random: &mut Random) -> Vec<u8> {
    let size = random.between(1, 10);
    let list = script(edition, random, size);
    let mut input = dressed(&list, random).encode();
    let place = random.below(input.len());
    match random.below(4) {
        0 => input.truncate(place),
        1 => input[place] ^= 1 << random.below(8),
        2 => drop(input.remove(place)),
        _ => input.insert(place, random.below(256) as u8),
    }
    input
}
