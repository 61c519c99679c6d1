//! Frames that ask about a refused token (request L2): those that are written down, and for each case of a run its own code and
//! token, and now and then others, of which mostly nothing is told.
use std::collections::HashSet;

use crate::{
    answer::LIMIT,
    builtins::Builtins,
    case::{Case, MAX_TOKENS, Token},
    corners::{self, EDITIONS, NESTINGS, RULES, SAMPLES},
    door,
    drawn::{Cases, damage},
    editions::WRONG,
    judge,
    kinds::EOF,
    list::{Gaps, Word, printed, script, words},
    random::Random,
    rows::{Outcome, Refusal},
    terms::{FIRST, SECOND, Terms},
    tight::limit,
    told::{HEAD, Question, TOLD},
};

/// Scripts that are refused, for what could have stood there and what is open.
#[rustfmt::skip]
pub const PLACES: &[&str] = &[
    "f(a", "(a b", "return;", "x = y = z;", "for", "{ let x }", "f(a,", "(f)(x);", "if a", "{ a", "import", "import a", "import a:", "import a: b", "|", "|x", "|x|",
    "#{", "#{k", "#{k: v", "a.", "fun", "let x", "not", "-", "if a {} else", "a", "while a {} else", "{ break", "a + ;",
    // constructs are counted before their first token is looked at
    ";", "if a b", "fun f() x", "while a b", "if a {} else b", "|x| )", "- )", "not )", "a + -", "(", "{ ) }", "x = )",
    // a required kind that could not have stood there, and an operand where none could
    "import;", "import a.", "{ import a: }", "a }", "{} else", "a; )", "{ a; )",
    // a construct that is whole is closed
    "{ (a) b", "f(a) b", "-a b", "not a b", "if a {} else {} )", "{ if a {} b c", "(-(a) b", "#{(a): -b c", "|x| { x } y", "{ {} {} )",
    // `for` is refused where a statement stands, and opens nothing
    "for a", "{ for", "a; for", "(for", "{ {} for", "if for",
    // the editions differ
    "return )", "{ return", "return", "(a)", "(a)(", "(a) b", "(a).", "not not", "- not", "not -", "{ return )", "((a) b", "not (a) b", "(a)(b", "not a and )", "not |x| )",
];

/// Scripts that are asked about with every code at every token.
const SEARCHED: &[&str] =
    &["f(a", "{ for", "a; )", "((a", "", "a;", "-a", "return )", "not not", "{ (a)(b", "if a b", "import"];

/// Scripts in which reading comes to every place that a kind may stand at: after each of their tokens each kind is tried.
#[rustfmt::skip]
const READ: &[&str] = &[
    "import a.b: c, d;", "import a:;", "fun f(a, b) { let x = 1; return x }", "fun f() {} ;", "if a {} else if b { c = d } else {}", "while a { break; continue }", "f(a, b)(c).d = |x, y| x;",
    "#{k: v, w: a, b};", "#{};", "{ const x = -a * (b); {} }", "ref r = || { return a };", "x = not a and b or c == d;", "f();", "{ a; b }", "a = (b).c(d);", "{ import a: b; if a {} a = 1 }",
    "return (a + b) < -1;", "f({ a }, if b {} else {}, #{a: {}});",
];

/// Limits that no call may name, and codes of which nothing is told.
const WRONG_LIMITS: [u32; 5] = [0, LIMIT + 1, 256 + LIMIT, 0x8000_0001, u32::MAX];
const OTHER_CODES: [u32; 16] = [0, 1, 2, 3, 4, 5, 6, 7, 12, 13, 15, 16, 21, 255, 256 + 8, u32::MAX];

/// The frames of a run, always the same for a seed: the corners, and then one for each case of `Cases`.
pub fn frames(edition: Option<u32>, seed: u64) -> impl Iterator<Item = Vec<u8>> + Send {
    let corners = corners().into_iter().map(|question| question.encode());
    corners.chain(broken()).chain(drawn(edition, seed).map(|question| question.encode()))
}

/// Four of five are of this edition, or, where none is named, half are of each. Scripts of each edition are read in the other, too.
pub fn drawn(edition: Option<u32>, seed: u64) -> impl Iterator<Item = Question> + Send {
    let cases = [FIRST, SECOND].map(|edition| Cases::of(edition, seed));
    (0..).map(move |index| {
        let random = &mut Random::of(seed.rotate_left(24), index);
        let is_other = random.once_in(if edition.is_none() { 2 } else { 5 });
        let edition = edition.unwrap_or(FIRST);
        let edition = if is_other { FIRST + SECOND - edition } else { edition };
        let written = if random.once_in(4) { FIRST + SECOND - edition } else { edition };
        of_input(edition, cases[(written - 1) as usize].get(index), random)
    })
}

/// Code and token of a refusal, in rooms that are large enough.
fn own(case: &Case, terms: Terms) -> Option<[u32; 2]> {
    let place = |Refusal { code, at, .. }: Refusal| [code, at];
    if let Some(refusal) = door::refusal(case, terms) {
        return Some(place(refusal));
    }
    match judge::read(&Builtins::default(), case, terms).outcome {
        Outcome::Refused(refusal) => Some(place(refusal)),
        Outcome::Accepted(_) => None,
    }
}

/// Asks about a case's own refusal; of an accepted one, about code 0.
fn about(case: &Case, edition: u32, limit: u32) -> Question {
    let terms = Terms { edition, limit };
    let [code, at] = own(case, terms).unwrap_or_default();
    Question { terms, code, at, input: case.encode() }
}

/// Three of four ask about the case's own refusal, and most cases that are accepted get a fault first.
fn of_input(edition: u32, input: Vec<u8>, random: &mut Random) -> Question {
    let Some(mut case) = Case::decode(&input) else {
        let terms = Terms { edition, limit: LIMIT };
        return Question { terms, code: random.between(8, 11) as u32, at: random.below(4) as u32, input };
    };
    let limit = limit(&case, Terms { edition, limit: LIMIT }.into(), random);
    let terms = Terms { edition, limit };
    if own(&case, terms).is_none() && !random.once_in(8) {
        case = refused(case, terms, random);
    }
    let mut question = about(&case, edition, limit);
    match random.below(16) {
        0 => question.code = any_code(random),
        1 => question.at = any_place(&case, question.at, random),
        2 if random.once_in(2) => question.terms.edition = FIRST + SECOND - edition,
        2 => question.terms.edition = random.pick(&WRONG),
        3 if random.once_in(2) => question.terms.limit = random.pick(&WRONG_LIMITS),
        3 => question.terms.limit = random.between(1, LIMIT as usize) as u32,
        _ => {}
    }
    question
}

/// A script with faults, until it is refused.
fn refused(case: Case, terms: Terms, random: &mut Random) -> Case {
    let word = |token: &Token| {
        let lexeme = case.lexeme(*token).expect("a token of the text");
        Word::new(token.kind, str::from_utf8(lexeme).expect("ASCII"))
    };
    let mut list: Vec<_> = case.tokens.iter().filter(|token| token.kind != EOF).map(word).collect();
    let mut case = case.clone();
    for _ in 0..10 {
        if random.once_in(16) {
            list.insert(random.below(list.len() + 1), Word::plain(FOR));
        } else {
            damage(&mut list, random);
        }
        list.truncate(MAX_TOKENS - 1);
        case = printed(&list, Gaps::Space, random);
        if own(&case, terms).is_some() {
            break;
        }
    }
    case
}

const FOR: u8 = kaori::syntax::token::Token::For as u8;

fn any_code(random: &mut Random) -> u32 {
    if random.once_in(3) { random.pick(&OTHER_CODES) } else { random.between(8, 11) as u32 }
}

/// Before the token, after it, past the list, anywhere.
fn any_place(case: &Case, at: u32, random: &mut Random) -> u32 {
    let count = case.tokens.len() as u32;
    match random.below(8) {
        0 | 1 => at.wrapping_sub(1),
        2 | 3 => at.wrapping_add(1),
        4 => count,
        5 => random.pick(&[count + 1, 4_095, 4_096, at.wrapping_add(1 << 16), 1 << 31, u32::MAX]),
        _ => random.below(count as usize + 1) as u32,
    }
}

/// The frames that are written down.
fn corners() -> Vec<Question> {
    let mut all = Vec::new();
    // each script in both editions, with small limits
    for text in PLACES.iter().chain(SAMPLES).chain(RULES).chain(EDITIONS) {
        for edition in [FIRST, SECOND] {
            all.extend([LIMIT, 1, 2, 3, 4].map(|limit| about(&script(text), edition, limit)));
        }
    }
    // as many open as there may be, and more
    for form in NESTINGS {
        for times in (1..4).chain(19..23).chain(30..34).chain(61..68) {
            let case = script(&(form.open.repeat(times) + form.core));
            for edition in [FIRST, SECOND] {
                all.extend([LIMIT, LIMIT - 1, 5].map(|limit| about(&case, edition, limit)));
            }
        }
    }
    all.extend(corners::at_limit().iter().map(|case| about(case, FIRST, LIMIT)));
    // each kind at each place
    for text in READ {
        let list = words(text);
        for (count, kind) in (0..=list.len()).flat_map(|count| (0..EOF).map(move |kind| (count, kind))) {
            let list = [&list[..count], &[Word::plain(kind)]].concat();
            let case = printed(&list, Gaps::Space, &mut Random::of(0, 0));
            all.extend([FIRST, SECOND].map(|edition| about(&case, edition, LIMIT)));
        }
    }
    // every code at every token and past the list; also of lists that the door refuses, whose kinds decide
    let of_door = corners::at_door();
    let written = SEARCHED.iter().map(|text| (script(text), 0..=13, &[LIMIT, 1][..]));
    for (case, codes, limits) in written.chain(of_door.into_iter().map(|case| (case, TOLD, &[LIMIT][..]))) {
        for (at, code) in
            (0..=case.tokens.len() as u32 + 1).flat_map(|at| codes.clone().map(move |code| (at, code)))
        {
            for limit in limits {
                let terms = [FIRST, SECOND].map(|edition| Terms { edition, limit: *limit });
                all.extend(terms.map(|terms| Question { terms, code, at, input: case.encode() }));
            }
        }
    }
    all.extend(misnamed());
    let mut seen = HashSet::new();
    all.retain(|question| seen.insert(question.encode()));
    all
}

/// A number that is wrong, alone.
fn misnamed() -> Vec<Question> {
    let mut all = Vec::new();
    for text in ["f(a", "return )", "for"] {
        let right = about(&script(text), SECOND, LIMIT);
        let with = |edition, limit, code, at| {
            let terms = Terms { edition, limit };
            Question { terms, code, at, input: right.input.clone() }
        };
        let Question { code, at, .. } = right;
        all.extend(WRONG.map(|edition| with(edition, LIMIT, code, at)));
        all.extend(WRONG_LIMITS.map(|limit| with(SECOND, limit, code, at)));
        all.extend(OTHER_CODES.map(|code| with(SECOND, LIMIT, code, at)));
        all.extend([at + 1, at + 4_096, u32::MAX].map(|at| with(SECOND, LIMIT, code, at)));
    }
    all
}

/// Frames that end too early, and such whose input is broken.
fn broken() -> impl Iterator<Item = Vec<u8>> {
    let whole = about(&script("f(a"), SECOND, LIMIT).encode();
    let short = [2, 3, 17, HEAD, HEAD + 1, 21, 22, 23, HEAD + 6, whole.len() - 1];
    let short: Vec<_> = short.map(|length| whole[..length].to_vec()).into();
    let inputs = [corners::broken(), corners::at_sizes()].concat();
    let with = |input| Question { terms: Terms { edition: FIRST, limit: LIMIT }, code: 8, at: 1, input };
    short.into_iter().chain(inputs.into_iter().map(move |input| with(input).encode()))
}

/// A smaller choice of them, for the fixed list: the scripts in both editions, small limits and the largest one, and each number that
/// is wrong.
pub fn chosen() -> Vec<Vec<u8>> {
    let mut all = Vec::new();
    for text in PLACES {
        all.extend([FIRST, SECOND].map(|edition| about(&script(text), edition, LIMIT)));
    }
    for text in ["((a));", "-f(x);", "if a {} else if b {}", "|x| {};", "not not a;", "{return}"] {
        for edition in [FIRST, SECOND] {
            all.extend((1..=3).map(|limit| about(&script(text), edition, limit)));
        }
    }
    for form in NESTINGS.iter().step_by(3) {
        for times in [21, 31, 66] {
            all.push(about(&script(&(form.open.repeat(times) + form.core)), FIRST, LIMIT));
        }
    }
    all.extend(misnamed());
    let broken = broken().step_by(3);
    all.iter().map(Question::encode).chain(broken).collect()
}

/// The frames that are tried while a case is made smaller: its own code and token, its own refusal, and all codes at all tokens, up
/// to some hundred.
pub fn tried(question: &Question) -> Vec<Vec<u8>> {
    let mut all = vec![question.clone()];
    if let Some(case) = Case::decode(&question.input) {
        let Terms { edition, limit } = question.terms;
        all.push(about(&case, edition, limit));
        let places = 0..case.tokens.len().min(25) as u32;
        all.extend(places.flat_map(|at| TOLD.map(move |code| (code, at))).map(|(code, at)| Question {
            code,
            at,
            ..question.clone()
        }));
    }
    all.iter().map(Question::encode).collect()
}
