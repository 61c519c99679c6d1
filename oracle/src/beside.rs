//! Cases beside built-in names (request L10): those that are written down, and for each case of a run names that tell, right
//! ones and wrong ones.
use std::collections::HashSet;

use crate::{
    answer::LIMIT,
    builtins::{Builtins, MAX_NAMES},
    case::{Case, Token},
    drawn::{Cases, mangled},
    kinds::{EOF, IDENTIFIER, STRING, fits},
    list::script,
    random::Random,
    rooms::{Known, LARGEST, Lent, MAX_NAMES_NUMBERS, MAX_NAMES_TEXT, NAMES_HEAD, SCRATCH, SYMBOLS, WIDTHS},
    scripts::any_name,
    terms::FIRST,
    tight::{limit, settings},
};

/// A built-in text, its rows, and a script.
pub type Named = (&'static [u8], &'static [u32], &'static str);

#[rustfmt::skip]
pub const RIGHT: &[Named] = &[
    // none, and a number left over; names that the script does not have
    (b"", &[], "a; \"b\";"), (b"print", &[], "print;"), (b"", &[9], "a;"), (b"print advance", &[0, 5, 6, 13], ""),
    // one that it has, and then one of its own; declared, and a property; a string whose inside spells one
    (b"print advance", &[0, 5, 6, 13], "advance(x);"), (b"print advance", &[0, 5, 6, 13], "let print = f.print;"),
    (b"print advance", &[0, 5, 6, 13], "\"print\"; \"\"; \"print \"; \"pri\\nt\";"),
    // names that begin as one, and as one begins; one of its own again, after one that is built in
    (b"print advance", &[0, 5, 6, 13], "prin; printx; Print; _print;"),
    (b"print advance", &[0, 5, 6, 13], "x; print; x; \"x\"; \"advance\"; advance;"),
    // wherever a name may stand
    (b"print advance", &[0, 5, 6, 13], "fun print(advance) { |print| advance } import advance.print: x, print;"),
    // a row of a built-in name that is also the place of a name in the script
    (b"xxa", &[2, 3], "a;b;"), (b"a;b;", &[0, 1, 2, 3], "b;a;c;"),
    // rows that overlap and go back; the same start or the same end
    (b"abc", &[1, 3, 0, 2, 0, 3, 7], "abc; ab; c;"), (b"abc", &[2, 3, 1, 3, 0, 3, 0, 1, 1, 2], "c; b; a; bc; ab;"),
    // bytes over 127 and signs around names; a keyword with a letter more
    (b"\xFFprint\xC3\x28;if", &[1, 6], "print; \"if\";"), (b"iffy _0 nil_", &[0, 4, 5, 7, 8, 12], "_0; iffy; nil_; nil;"),
    // refused in reading, at a built-in name and after one
    (b"print advance", &[0, 5, 6, 13], "x print;"), (b"print advance", &[0, 5, 6, 13], "print(advance"),
    (b"print advance", &[0, 5, 6, 13], "let 1"), (b"print", &[0, 5], "print; for"),
];

/// Each thing that refusal 18 is for, and no other: a text that is too long does not go into a frame.
pub const WRONG: &[(&[u8], &[u32])] = &[
    // a bad span: start over end, end past the text, both
    (b"print advance", &[5, 0, 6, 13]),
    (b"print advance", &[0, 5, 13, 6]),
    (b"print advance", &[0, 5, 6, 14]),
    (b"print advance", &[0, u32::MAX, 6, 13]),
    (b"print advance", &[14, 14]),
    (b"print advance", &[u32::MAX, u32::MAX]),
    (b"print advance", &[u32::MAX, 5]),
    (b"", &[0, 1]),
    // no identifier: bytes before, behind and within, a digit first, a string, a byte over 127, nothing
    (b"print advance", &[0, 5, 5, 13]),
    (b"print advance", &[0, 6, 6, 13]),
    (b"print advance", &[0, 13]),
    (b"1x", &[1, 2, 0, 2]),
    (b"1x", &[0, 1]),
    (b"\"x\"", &[0, 3]),
    (b"\xE9t", &[1, 2, 0, 2]),
    (b"x\x80", &[0, 2]),
    (b"", &[0, 0]),
    (b"print", &[0, 5, 5, 5]),
    (b"print", &[2, 2, 0, 5]),
    // a keyword
    (b"if", &[0, 2]),
    (b"iffy", &[0, 4, 0, 2]),
    (b"nil and", &[4, 7]),
    // the same name twice: at the same place, beside it, elsewhere, not next to it
    (b"ab", &[0, 2, 0, 2]),
    (b"abab", &[0, 2, 2, 4]),
    (b"ab ab", &[3, 5, 0, 2, 9]),
    (b"ab c ab", &[0, 2, 3, 4, 5, 7]),
    (b"ab c ab", &[3, 4, 0, 2, 0, 1, 5, 7]),
];

fn builtins((text, rows): (&[u8], &[u32])) -> Builtins {
    Builtins { text: text.into(), rows: rows.into() }
}

/// Two names, and one that stands there twice.
pub fn right_and_wrong() -> [Builtins; 2] {
    [builtins((b"print advance", &[0, 5, 6, 13])), builtins((b"ab ab", &[3, 5, 0, 2, 9]))]
}

/// So many different names.
fn many(count: usize) -> Builtins {
    let mut names = Builtins::default();
    (0..count).for_each(|number| appended(&mut names, format!("n{number}").as_bytes()));
    names
}

/// A name, or what is none, at the end of the text, and its row behind the others.
fn appended(names: &mut Builtins, word: &[u8]) {
    let place = added(names, word);
    names.rows.extend(place);
}

/// All that is wrong in one way and can stand in a frame: also 65 and 66 names, and 64 with a wrong one.
pub fn wrong() -> Vec<Builtins> {
    let mut all: Vec<_> = WRONG.iter().copied().map(builtins).collect();
    all.extend([65, 66].map(many));
    all.extend([0, 31, 63].map(|place| {
        let mut names = many(64);
        names.rows[2 * place + 1] = names.rows[2 * place];
        names
    }));
    all.extend([(0, 63), (62, 63), (0, 1)].map(|(first, second)| {
        let mut names = many(64);
        let word = format!("n{first}");
        names.rows.drain(2 * second..2 * second + 2);
        appended(&mut names, word.as_bytes());
        names
    }));
    all
}

/// What can be wrong with a call, in the order of checking: no tokens (1), limit 0 (3), scratch that is a number short (4), a
/// symbol room that is a number short for the built-in rows (4), a byte over 127 (5), a kind over 44 (6), no Eof (7), no `;`
/// (8). Between the two 4 stands 18.
pub const FAULTS: usize = 8;
const SHORT_SYMBOLS: usize = 3;

/// A call with these names, and those faults whose bits are set.
pub fn faulty(names: &Builtins, faults: usize) -> Lent {
    faulty_script(if faults & 1 << 7 != 0 { "a" } else { "a;" }, names, faults)
}

/// One of this script, and those faults whose bits are set, but for the last.
pub fn faulty_script(text: &str, names: &Builtins, faults: usize) -> Lent {
    let has = |fault: usize| faults & 1 << fault != 0;
    let mut case = script(text);
    if has(6) {
        let last = case.tokens.last_mut().expect("an Eof");
        *last = Token { kind: IDENTIFIER, end: last.end + 1, ..*last };
        case.text.push(b'b');
    }
    if has(5) {
        case.tokens[0].kind = EOF + 1;
    }
    if has(4) {
        case.text.push(200);
    }
    let limit = if has(1) { 0 } else { LIMIT };
    let known = Known::beside(names.clone(), case, limit);
    let mut rooms = known.ample();
    rooms[SYMBOLS] = if has(SHORT_SYMBOLS) { known.built_in().saturating_sub(1) } else { rooms[SYMBOLS] };
    rooms[SCRATCH] -= has(2) as u32;
    let mut lent = Lent { names: Some(names.clone()), ..known.lent(rooms) };
    if has(0) {
        lent.input = Case { tokens: Vec::new(), ..Case::decode(&lent.input).expect("a case") }.encode();
    }
    lent
}

/// The frames that are written down: right names in the rooms that tell, 64 names, wrong names, and all faults together with
/// them and with right ones; and heads that are broken.
pub fn corners() -> Vec<Vec<u8>> {
    let mut calls = Vec::new();
    let random = &mut Random::of(0, 0);
    for (text, rows, words) in RIGHT {
        calls.extend(in_rooms(builtins((text, rows)), script(words), LIMIT, random));
    }
    for names in [many(63), many(64), Builtins { rows: [many(64).rows, vec![7]].concat(), ..many(64) }] {
        calls.extend(in_rooms(names, script("n63; n64; \"n0\"; n;"), LIMIT, random));
    }
    let right = builtins((b"print advance", &[0, 5, 6, 13]));
    for names in [vec![right], wrong()].concat() {
        calls.extend((0..1 << FAULTS).map(|faults| faulty(&names, faults)));
    }
    calls.iter().map(Lent::encode).chain(broken()).chain(largest()).collect()
}

/// A smaller choice of them, for the fixed list: right names in what they and the script need, and in a symbol row less; 64
/// names; wrong names alone; and each fault with wrong names, and with a symbol room that is short for right ones.
pub fn chosen() -> Vec<Vec<u8>> {
    let mut calls = Vec::new();
    for (text, rows, words) in RIGHT {
        let names = builtins((text, rows));
        let known = Known::beside(names.clone(), script(words), LIMIT);
        let exact = known.fitting(known.asked().len());
        let less = exact[SYMBOLS].checked_sub(WIDTHS[SYMBOLS]);
        let rooms = [exact].into_iter().chain(less.map(|less| [exact[0], exact[1], less, exact[SCRATCH]]));
        calls.extend(rooms.map(|rooms| Lent { names: Some(names.clone()), ..known.lent(rooms) }));
    }
    let known = Known::beside(many(64), script("n63; n64;"), LIMIT);
    calls.push(Lent { names: Some(many(64)), ..known.lent(known.fitting(known.asked().len())) });
    calls.push(faulty(&many(65), 0));
    let [right, twice] = right_and_wrong();
    calls.extend(WRONG.iter().map(|names| faulty(&builtins(*names), 0)));
    for fault in 0..FAULTS {
        calls.extend([faulty(&twice, 1 << fault), faulty(&right, 1 << SHORT_SYMBOLS | 1 << fault)]);
    }
    calls.iter().map(Lent::encode).chain(broken()).collect()
}

/// Frames that end too early, and whose names are said to be longer than they are.
fn broken() -> Vec<Vec<u8>> {
    let names = builtins((b"print", &[0, 5, 9]));
    let whole = faulty(&names, 0).encode();
    let to_input = NAMES_HEAD + names.text.len() + 4 * names.rows.len();
    let lengths =
        [2, 22, NAMES_HEAD - 1, NAMES_HEAD, NAMES_HEAD + 1, to_input - 1, to_input, whole.len() - 1];
    let mut frames: Vec<_> = lengths.map(|length| whole[..length].to_vec()).into();
    // the lowest and the highest byte of how long the text is, and of how many numbers there are
    for place in [8, 5, 4, 1] {
        let mut frame = whole.clone();
        frame[NAMES_HEAD - place] = 255;
        frames.push(frame);
    }
    frames
}

/// Names as large as a frame may have them, and larger.
fn largest() -> impl Iterator<Item = Vec<u8>> {
    let sizes =
        [(MAX_NAMES_TEXT, 1), (MAX_NAMES_TEXT + 1, 1), (3, MAX_NAMES_NUMBERS), (3, MAX_NAMES_NUMBERS + 1)];
    sizes.into_iter().map(|(bytes, numbers)| {
        faulty(&Builtins { text: vec![b'x'; bytes], rows: vec![0; numbers] }, 0).encode()
    })
}

/// A case beside names in all rooms that tell.
fn in_rooms(names: Builtins, case: Case, limit: u32, random: &mut Random) -> Vec<Lent> {
    let known = Known::beside(names.clone(), case, limit);
    let lent = |rooms| Lent { names: Some(names.clone()), ..known.lent(rooms) };
    settings(&known, random).into_iter().map(lent).collect()
}

/// The frames of a run, always the same for a seed: the corners, and then each case of `Cases`, or now and then one that the
/// door refuses, beside names of its own.
pub fn frames(seed: u64) -> impl Iterator<Item = Vec<u8>> + Send {
    let cases = Cases::new(seed);
    let drawn = (0..).flat_map(move |index| {
        let random = &mut Random::of(seed.rotate_left(32), index);
        let case =
            if random.once_in(8) { Some(mangled(FIRST, random)) } else { Case::decode(&cases.get(index)) };
        let Some(case) = case else {
            let rooms = LARGEST.map(|largest| random.below(largest as usize) as u32);
            let names = Some(for_case(&Case::default(), MAX_NAMES, random));
            let input = cases.get(index);
            return vec![Lent { is_guard: false, edition: None, names, limit: LIMIT, rooms, input }];
        };
        let mut names = for_case(&case, MAX_NAMES, random);
        let limit = limit(&case, LIMIT.into(), random);
        if !random.once_in(4) {
            return in_rooms(names, case, limit, random);
        }
        spoil(&mut names, random);
        let mut calls = in_rooms(names, case, limit, random);
        calls.retain(|_| random.once_in(2)); // most are refused alike
        calls
    });
    corners().into_iter().chain(drawn.map(|lent| lent.encode()))
}

/// Right names, up to so many: some that the case has, some that nearly are, and others.
pub fn for_case(case: &Case, most: usize, random: &mut Random) -> Builtins {
    let own = words(case);
    let count = match random.below(10) {
        0 => 0,
        1 => 1,
        2..7 => random.between(2, 8),
        7..9 => random.between(8, 40),
        _ => random.between(60, MAX_NAMES),
    };
    let (mut seen, mut list) = (HashSet::new(), Vec::new());
    for _ in 0..4 * count {
        let word = match random.below(4) {
            0 | 1 if !own.is_empty() => own[random.below(own.len())].clone(),
            2 if !own.is_empty() => near(&own[random.below(own.len())], random),
            _ => any_name(random).into_bytes(),
        };
        if list.len() < count.min(most) && fits(IDENTIFIER, &word) && seen.insert(word.clone()) {
            list.push(word);
        }
    }
    laid_out(&list, random)
}

/// What the case's names and strings spell, where that may be a name.
fn words(case: &Case) -> Vec<Vec<u8>> {
    let word = |token: &Token| -> Option<Vec<u8>> {
        let lexeme = case.lexeme(*token)?;
        let word = match token.kind {
            IDENTIFIER => lexeme,
            STRING => lexeme.get(1..lexeme.len().checked_sub(1)?)?,
            _ => return None,
        };
        fits(IDENTIFIER, word).then(|| word.to_vec())
    };
    case.tokens.iter().filter_map(word).collect()
}

/// A word that begins or ends as this one does.
fn near(word: &[u8], random: &mut Random) -> Vec<u8> {
    let mut word = word.to_vec();
    match random.below(5) {
        0 => word.push(random.pick(b"ab_X09")),
        1 => drop(word.pop()),
        2 => word.insert(0, random.pick(b"ab_X")),
        3 => drop(word.remove(0)),
        _ => {
            let place = random.below(word.len());
            word[place] = random.pick(b"ab_X09");
        }
    }
    word
}

/// The words as rows of a text in which they stand in another order, with anything between them, and some within others.
fn laid_out(words: &[Vec<u8>], random: &mut Random) -> Builtins {
    let mut text = Vec::new();
    let mut places = vec![[0; 2]; words.len()];
    let mut order: Vec<_> = (0..words.len()).collect();
    (1..order.len()).for_each(|place| order.swap(place, random.below(place + 1)));
    let apart = random.below(4);
    for number in order {
        let word = &words[number];
        let within = text.windows(word.len()).position(|part| part == &word[..]);
        let start = within.filter(|_| !random.once_in(3)).unwrap_or_else(|| {
            text.extend((0..random.below(apart + 1)).map(|_| random.below(256) as u8));
            text.extend(word);
            text.len() - word.len()
        });
        places[number] = [start as u32, (start + word.len()) as u32];
    }
    text.extend((0..random.below(3)).map(|_| random.below(256) as u8));
    let mut rows = places.concat();
    if random.once_in(3) {
        rows.push(random.pick(&[0, 1, text.len() as u32, u32::MAX]));
    }
    Builtins { text, rows }
}

/// What is no identifier.
const NO_NAMES: &[&[u8]] =
    &[b"1", b"0x", b"a b", b" a", b"a ", b"a.b", b"\xC3\xA4", b"a\x80", b"\"a\"", b"\0", b"a\n"];
const KEYWORDS: &[&str] = &["and", "fun", "if", "nil", "true", "import", "for"];

/// Makes one name wrong, or puts a wrong one among them; now and then 65 or 66 names of them.
pub fn spoil(names: &mut Builtins, random: &mut Random) {
    let size = names.text.len() as u32;
    let count = names.places().len();
    if random.once_in(8) {
        names.rows.truncate(2 * count);
        let more = random.between(MAX_NAMES + 1, MAX_NAMES_NUMBERS / 2) - count;
        return (0..more).for_each(|number| appended(names, format!("more{number}").as_bytes()));
    }
    let row = match random.below(6) {
        // start over end
        0 => {
            let end = random.below(size as usize + 2) as u32;
            [end + 1 + random.below(3) as u32, end]
        }
        // past the text
        1 => {
            let past = size + 1 + random.pick(&[0, 1, 1_000, u32::MAX - size - 1]);
            [random.pick(&[0, size, past]), past]
        }
        // nothing
        2 => [random.below(size as usize + 1) as u32; 2],
        3 => added(names, random.pick(NO_NAMES)),
        4 => added(names, random.pick(KEYWORDS).as_bytes()),
        // one that is there, at its place or elsewhere
        _ if count > 0 => {
            let place = names.places()[random.below(count)];
            let word = names.text[place[0] as usize..place[1] as usize].to_vec();
            if random.once_in(3) { place } else { added(names, &word) }
        }
        _ => [0, 0],
    };
    let place = 2 * random.below(count + 1);
    if count == MAX_NAMES || place < 2 * count && random.once_in(2) {
        let place = place.min(2 * count - 2);
        names.rows[place..place + 2].copy_from_slice(&row);
    } else {
        names.rows.splice(place..place, row);
    }
}

/// Where a word stands that is put to the text's end.
fn added(names: &mut Builtins, word: &[u8]) -> [u32; 2] {
    let start = names.text.len() as u32;
    names.text.extend(word);
    [start, names.text.len() as u32]
}
