//! Request L2: what could have stood at a refused token, and what was open there, as the oracle tells it.
use kaori::{
    compiler::{Opening, Sort},
    syntax::token::Token,
};
use oracle::{
    case::{Case, Token as Record},
    could::{Could, Plain, Stop},
    kinds::{EOF, TOKENS, spelling},
    list::script,
    questions::{drawn, frames},
    random::Random,
    rooms::Judge,
    terms::{FIRST, SECOND, Terms},
    told::{HEAD, Question, Told},
};

const LIMIT: u32 = 64;

fn told(edition: u32, limit: u32, text: &str, code: u32, at: u32) -> Told {
    let case = script(text);
    let question = Question { terms: Terms { edition, limit }, code, at, input: case.encode() };
    question.told(&case, &mut Could::default())
}

/// Sorts and tokens of a chain.
fn chain(told: &Told) -> Vec<(u32, usize)> {
    told.chain.iter().map(|Opening { sort, at }| (*sort as u32, *at)).collect()
}

/// A set as it is written down: operators of the six levels are one word, and what an operand and what a statement may begin with is
/// one, too.
fn set(words: &str) -> u64 {
    let one = |kind: u8| 1 << kind;
    let named = |word: &str| match word {
        "NUMBER" => one(Token::NumberLiteral as u8),
        "STRING" => one(Token::StringLiteral as u8),
        "NAME" => one(Token::Identifier as u8),
        "EOF" => one(EOF),
        _ => one((0..EOF).find(|kind| spelling(*kind) == Some(word)).unwrap_or_else(|| panic!("{word}"))),
    };
    let all = |words: &str| words.split_whitespace().map(named).fold(0, |set, kind| set | kind);
    let binary = all("+ - * / % != == >= <= > < and or");
    let operand = all("+ - ^ | ( # { not if true false nil NUMBER STRING NAME");
    let statement = operand | all("let const ref fun while break continue return import");
    words
        .split_whitespace()
        .map(|word| match word {
            "BINARY" => binary,
            "OPERAND" => operand,
            "STATEMENT" => statement,
            word => named(word),
        })
        .fold(0, |set, kinds| set | kinds)
}

/// Script, code and token; the set as a number, how many and the lowest; the kinds; the chain. Edition 1.
type Sample = (&'static str, [u32; 2], (u64, u32, u32), &'static str, &'static [(u32, usize)]);

#[rustfmt::skip]
const SAMPLES: &[Sample] = &[
    ("f(a", [8, 3], (0xc6bfee, 17, 1), "BINARY , . ( )", &[(0, 0)]),
    ("(a b", [8, 2], (0xc69fee, 16, 1), "BINARY . ( )", &[(0, 0)]),
    ("return;", [9, 1], (0xde2011b0016, 15, 1), "OPERAND", &[(0, 1)]),
    ("x = y = z;", [8, 3], (0x20000c29fee, 16, 1), "BINARY . ( ;", &[]),
    ("for", [10, 0], (0x1dfbdf1b0016, 25, 1), "STATEMENT EOF", &[]),
    ("{ let x }", [8, 3], (0x1, 1, 0), "=", &[(1, 0)]),
    ("f(a,", [8, 4], (0xde2011f0016, 16, 1), "OPERAND )", &[(0, 0)]),
    ("(f)(x);", [8, 3], (0x20000c01fef, 15, 0), "= BINARY ;", &[]),
    ("if a", [8, 2], (0xd29fee, 16, 1), "BINARY . ( {", &[(2, 0), (1, 2)]),
    ("{ a", [8, 2], (0x20000e29fef, 18, 0), "= BINARY . ( } ;", &[(1, 0)]),
    ("import", [8, 1], (0x80000000000, 1, 43), "NAME", &[]),
    ("import a", [8, 2], (0x2000000c000, 3, 14), ": . ;", &[]),
    ("import a:", [8, 3], (0xa0000000000, 2, 41), "; NAME", &[]),
    ("import a: b", [8, 4], (0x20000002000, 2, 13), ", ;", &[]),
    ("|", [8, 1], (0x80000010000, 2, 16), "| NAME", &[(0, 0)]),
    ("|x", [8, 2], (0x12000, 2, 13), ", |", &[(0, 0)]),
    ("|x|", [9, 3], (0xde2011b0016, 15, 1), "OPERAND", &[(0, 0), (0, 3)]),
    ("#{", [8, 2], (0xde2013b0016, 16, 1), "OPERAND }", &[(0, 0)]),
    ("#{k", [8, 3], (0xe2ffee, 18, 1), "BINARY , : . ( }", &[(0, 0)]),
    ("#{k: v", [8, 5], (0xe2bfee, 17, 1), "BINARY , . ( }", &[(0, 0)]),
    ("a.", [8, 2], (0x80000000000, 1, 43), "NAME", &[(0, 0)]),
    ("fun", [8, 1], (0x80000000000, 1, 43), "NAME", &[]),
    ("let x", [8, 2], (0x1, 1, 0), "=", &[]),
    ("not", [9, 1], (0xde2011b0016, 15, 1), "OPERAND", &[(0, 0), (0, 1)]),
    ("-", [9, 1], (0xde2011b0016, 15, 1), "OPERAND", &[(0, 0), (3, 0)]),
    ("if a {} else", [8, 5], (0x200100000, 2, 20), "{ if", &[(2, 0), (1, 5)]),
    ("a", [8, 1], (0x20000c29fef, 17, 0), "= BINARY . ( ;", &[]),
    ("while a {} else", [9, 4], (0x1ffbdf1b0016, 26, 1), "STATEMENT ; EOF", &[(0, 4)]),
    ("{ break", [8, 2], (0x20000200000, 2, 21), "} ;", &[(1, 0)]),
    ("a + ;", [9, 2], (0xde2011b0016, 15, 1), "OPERAND", &[(0, 0)]),
];

#[test]
fn samples() {
    for (text, [code, at], (number, count, lowest), kinds, open) in SAMPLES {
        let told = told(FIRST, LIMIT, text, *code, *at);
        assert_eq!((told.kinds, told.kinds), (*number, set(kinds)), "{text}");
        assert_eq!(chain(&told), *open, "{text}");
        let mut line = format!(" {} {} {count} {lowest} {}\n", *number as u32, number >> 32, open.len());
        let entries = open.iter().copied().chain(std::iter::repeat((0, 0))).take(64);
        entries.for_each(|(sort, at)| line += &format!(" {sort} {at}"));
        assert_eq!(told.lines(), line + "\n", "{text}");
    }
}

/// What is counted at the refused token is open, and what is whole is not.
#[test]
fn chains() {
    #[rustfmt::skip]
    let chains: [(&str, [u32; 2], [&[(u32, usize)]; 2]); 18] = [
        (";", [9, 0], [&[(0, 0)]; 2]),
        ("if a b", [8, 2], [&[(2, 0), (1, 2)]; 2]),
        ("fun f() x", [8, 4], [&[(1, 4)]; 2]),
        ("while a b", [8, 2], [&[(1, 2)]; 2]),
        ("- )", [9, 1], [&[(0, 0), (3, 0)]; 2]),
        ("x = )", [9, 2], [&[(0, 2)]; 2]),
        ("{ (a) b", [8, 4], [&[(1, 0)]; 2]),
        ("(-(a) b", [8, 5], [&[(0, 0)]; 2]),
        ("{ if a {} b c", [8, 6], [&[(1, 0)]; 2]),
        ("{ {} for", [10, 3], [&[(1, 0)]; 2]),
        ("(for", [9, 1], [&[(0, 0), (0, 1)]; 2]),
        ("|x| { x } y", [8, 6], [&[]; 2]),
        ("a }", [9, 1], [&[(0, 1)]; 2]),
        // `not` opens an expression for what it takes, and in edition 2 a sign for itself
        ("not", [9, 1], [&[(0, 0), (0, 1)], &[(0, 0), (3, 0)]]),
        ("not not", [9, 2], [&[(0, 0), (0, 1), (0, 2)], &[(0, 0), (3, 0), (3, 1)]]),
        ("- not", [9, 2], [&[(0, 0), (3, 0), (0, 2)], &[(0, 0), (3, 0), (3, 1)]]),
        ("(not a and )", [9, 4], [&[(0, 0), (0, 1), (0, 2)], &[(0, 0), (0, 1)]]),
        ("{ return )", [9, 2], [&[(1, 0), (0, 2)]; 2]),
    ];
    for (text, [code, at], open) in chains {
        for (edition, open) in [FIRST, SECOND].into_iter().zip(open) {
            assert_eq!(own(edition, LIMIT, text), Some([code, at]), "{text} in edition {edition}");
            assert_eq!(chain(&told(edition, LIMIT, text, code, at)), open, "{text} in edition {edition}");
        }
    }
}

/// Code and token of a refusal.
fn own(edition: u32, limit: u32, text: &str) -> Option<[u32; 2]> {
    let outcome = oracle::rooms::Known::of(script(text), Terms { edition, limit }).outcome().clone();
    match outcome {
        oracle::rows::Outcome::Refused(refusal) => Some([refusal.code, refusal.at]),
        oracle::rows::Outcome::Accepted(_) => None,
    }
}

/// Where the editions have other sets.
#[test]
fn editions() {
    #[rustfmt::skip]
    let sets: [(&str, [u32; 2], [&str; 2]); 6] = [
        ("return )", [9, 1], ["OPERAND", "OPERAND ;"]),
        ("{ return )", [9, 2], ["OPERAND", "OPERAND ; }"]),
        ("(a)", [8, 3], ["= BINARY ;", "= BINARY . ( ;"]),
        ("((a) b", [8, 4], ["BINARY )", "BINARY . ( )"]),
        ("not (a) b", [8, 4], ["= BINARY ;", "= BINARY . ( ;"]),
        ("not )", [9, 1], ["OPERAND", "OPERAND"]),
    ];
    for (text, [code, at], kinds) in sets {
        for (edition, kinds) in [FIRST, SECOND].into_iter().zip(kinds) {
            assert_eq!(own(edition, LIMIT, text), Some([code, at]), "{text}");
            assert_eq!(told(edition, LIMIT, text, code, at).kinds, set(kinds), "{text} in edition {edition}");
        }
    }
}

/// As many are open as the limit, and nothing could have stood there; the set of another code knows no limit.
#[test]
fn too_deep() {
    oracle::with_large_stack(|| {
        for limit in 1..=LIMIT {
            let told = told(FIRST, limit, &"(".repeat(70), 11, limit);
            assert_eq!(told.kinds, 0);
            assert_eq!(chain(&told), (0..limit as usize).map(|at| (0, at)).collect::<Vec<_>>());
        }
        for (text, limit, at, open) in [
            ("- -a;", 2, 1, vec![(0, 0), (3, 0)]),
            ("if a {}", 1, 1, vec![(2, 0)]),
            ("{ if a { if b {} } }", 4, 5, vec![(1, 0), (2, 1), (1, 3), (2, 4)]),
            ("if a {} else if b {}", 2, 6, vec![(2, 0), (2, 5)]),
        ] {
            assert_eq!(own(FIRST, limit, text), Some([11, at]), "{text}");
            assert_eq!(chain(&told(FIRST, limit, text, 11, at)), open, "{text}");
        }
        assert_eq!(own(FIRST, 1, "a +"), Some([9, 2]));
        assert_eq!(told(FIRST, 1, "a +", 9, 2).kinds, set("OPERAND"));
        assert_eq!(chain(&told(FIRST, 1, "a +", 9, 2)), [(0, 0)]);
    });
}

/// Of anything else nothing is told.
#[test]
fn nothing() {
    let text = "f(a";
    assert_ne!(told(FIRST, LIMIT, text, 8, 3), Told::default());
    for code in (0..=21).chain([u32::MAX]).filter(|code| *code != 8) {
        assert_eq!(told(FIRST, LIMIT, text, code, 3), Told::default(), "code {code}");
    }
    for at in [0, 1, 2, 4, 5, u32::MAX] {
        assert_eq!(told(FIRST, LIMIT, text, 8, at), Told::default(), "token {at}");
    }
    for edition in [0, 3, u32::MAX] {
        assert_eq!(told(edition, LIMIT, text, 8, 3), Told::default(), "edition {edition}");
    }
    for limit in [0, 65, u32::MAX] {
        assert_eq!(told(FIRST, limit, "let x", 8, 2), Told::default(), "limit {limit}");
    }
    assert_eq!(Told::default().lines(), format!(" 0 0 0 255 0\n{}\n", " 0".repeat(128)));
}

/// The call has no text: kinds up to the token decide, whatever the door says of the list.
#[test]
fn kinds_alone() {
    let mut case = script("f(a");
    case.text[0] = 200;
    let asks = |case: &Case, at: u32| {
        let terms = Terms { edition: FIRST, limit: LIMIT };
        Question { terms, code: 8, at, input: case.encode() }.told(case, &mut Could::default())
    };
    let told = asks(&case, 3);
    assert_eq!(told.kinds, set("BINARY , . ( )"));
    case.tokens.push(Record { kind: 99, start: 9, end: 1 });
    assert_eq!(asks(&case, 3), told);
    case.tokens[1].kind = 99;
    assert_eq!(asks(&case, 3), Told::default());
    case.tokens[1].kind = EOF;
    assert_eq!(asks(&case, 3), Told::default());
    assert_ne!(asks(&case, 1), Told::default());
}

/// The original looks one token ahead. So a kind that it refuses at a place, which is in no set, begins no script from there: of all
/// continuations of up to so many kinds it accepts none. And where it gets past a kind a script is made; if that is no longer than
/// these, one is found among them, too.
fn searched(edition: u32, before: &[u8], length: usize) {
    let set = Could::default().stand(edition, before);
    for kind in 0..EOF {
        let mut script = Plain::of(before);
        script.push(kind);
        let found = is_found(edition, &mut script, before.len() + 1, length);
        let is_member = set & 1 << kind != 0;
        let is_short = is_member && script.end(edition).len() <= length;
        let names: Vec<_> = before.iter().map(|kind| TOKENS[*kind as usize]).collect();
        assert!(is_member || !found, "{:?} after {names:?}", TOKENS[kind as usize]);
        assert!(found || !is_short, "{:?} after {names:?}", TOKENS[kind as usize]);
    }
    assert_eq!(set & 1 << EOF != 0, Plain::of(before).stops(edition) == Stop::Whole);
}

/// Whether any script of up to so many kinds more is accepted. None is left out, so that nothing is taken as known.
fn is_found(edition: u32, script: &mut Plain, count: usize, length: usize) -> bool {
    let mut found = script.stops(edition) == Stop::Whole;
    for kind in 0..if length == 0 { 0 } else { EOF } {
        script.push(kind);
        found |= is_found(edition, script, count + 1, length - 1);
        script.cut(count);
    }
    found
}

/// After no kind, each kind, the kinds of each sample and some that are drawn, in both editions; and after two kinds one kind further.
#[test]
fn all_continuations() {
    oracle::with_large_stack(|| {
        let gets_past = |edition: u32, kinds: &[u8]| match Plain::of(kinds).stops(edition) {
            Stop::Whole => true,
            Stop::At { place, .. } => place == kinds.len(),
        };
        for edition in [FIRST, SECOND] {
            let mut befores = vec![Vec::new()];
            befores.extend((0..EOF).map(|kind| vec![kind]));
            for (text, [_, at], ..) in SAMPLES {
                befores.push(script(text).tokens[..*at as usize].iter().map(|token| token.kind).collect());
            }
            befores.retain(|before| gets_past(edition, before));
            befores.sort();
            befores.dedup();
            let random = &mut Random::of(edition as u64, 0);
            let mut drawn = Vec::new();
            while drawn.len() < 30 {
                let before = &befores[random.below(befores.len())];
                let before = [&before[..], &[random.below(EOF as usize) as u8]].concat();
                if gets_past(edition, &before) {
                    drawn.push(before);
                }
            }
            befores.iter().chain(&drawn).for_each(|before| searched(edition, before, 2));
            searched(edition, &[Token::LeftParen as u8, Token::Identifier as u8], 3);
        }
    });
}

/// Most questions of a run are about a refusal of which something is told, of each code.
#[test]
fn asked() {
    oracle::with_large_stack(|| {
        let mut could = Could::default();
        let mut telling = [0; 4];
        for question in drawn(None, 5).take(2_000) {
            let Some(case) = Case::decode(&question.input) else { continue };
            if question.told(&case, &mut could) != Told::default() {
                telling[question.code as usize - 8] += 1;
            }
        }
        assert!(telling.iter().sum::<u32>() > 1_000, "{telling:?}");
        assert!(telling.iter().all(|count| *count > 10), "{telling:?}");
    });
}

/// Frames are what they are read as, and a broken input is one.
#[test]
fn whole_frames() {
    for frame in frames(None, 5).take(300) {
        assert_eq!(Question::decode(&frame).expect("a question").encode(), frame);
    }
    let whole = frames(None, 5).next().unwrap(); // a text of three bytes
    for length in 0..whole.len() {
        let ends_a_record = length >= HEAD + 9 && (length - HEAD - 9) % 11 == 0;
        let answer = Judge::default().answer(&whole[..length]);
        assert_eq!(answer == b"bad input\n", !ends_a_record, "{length}");
    }
}

#[test]
fn sorts() {
    let numbers = [Sort::Expression, Sort::Block, Sort::If, Sort::Sign].map(|sort| sort as u32);
    assert_eq!(numbers, [0, 1, 2, 3]);
}
