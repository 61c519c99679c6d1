//! What could have stood at a refused token: samples of both editions; over the fixed list of the Rust parser's answers each
//! kind put there and read; the chain of a refusal for depth; and any numbers at all.
#[allow(dead_code)]
mod rows;

use kaori_syntax::{
    Builtins, Code, Edition, Expected, Kind, MAX_DEPTH, Opening, Refusal, Rooms, Sort, Span, TOKEN_WIDTH,
    expected,
};
use rows::{decode, frame};

const LIST: &[u8] = include_bytes!("../../../crates/replay/stdin");
const EOF: u32 = Kind::Eof as u32;
const KINDS: u32 = 45;

/// A lexeme of each kind, in the order of `Token`.
const LEXEMES: [&str; KINDS as usize] = [
    "=", "+", "-", "*", "^", "/", "%", "!=", "==", ">=", "<=", ">", "<", ",", ":", ".", "|", "(", ")", "#",
    "{", "}", "and", "or", "not", "let", "const", "ref", "fun", "for", "while", "break", "continue", "if",
    "else", "return", "import", "true", "false", "nil", "1", ";", "\"s\"", "a", "",
];

/// A text and tokens of these kinds.
fn script(kinds: &[u32]) -> (Vec<u8>, Vec<u32>) {
    let (mut text, mut tokens) = (Vec::new(), Vec::new());
    for &kind in kinds {
        let start = text.len() as u32;
        text.extend(LEXEMES[kind as usize].as_bytes());
        tokens.extend([kind, start, text.len() as u32]);
        text.push(b' ');
    }
    (text, tokens)
}

fn refused(rooms: &mut Rooms, kinds: &[u32], edition: Edition, limit: u32) -> Option<Refusal> {
    let (text, tokens) = script(kinds);
    rooms.parse_with(Builtins::NONE, &text, &tokens, edition, limit).err()
}

/// What holds of whatever is told.
fn hold(told: &Expected) {
    assert_eq!(told.kinds().count(), told.count() as usize);
    assert_eq!((told.kinds().next(), told.bits().count_ones()), (told.lowest(), told.count()));
    assert!(told.kinds().is_sorted() && told.kinds().all(|kind| told.contains(kind)));
    assert!(Kind::ALL.iter().copied().filter(|&kind| told.contains(kind)).eq(told.kinds()));
    assert!(told.kinds().rev().is_sorted_by(|one, next| one > next) && told.bits() >> KINDS == 0);
    assert!(!told.contains(Kind::For) && told.open().len() <= MAX_DEPTH as usize);
    assert!(told.open().is_sorted_by_key(|opening| opening.at));
}

fn nothing(told: &Expected) -> bool {
    (told.bits(), told.count(), told.lowest(), told.open()) == (0, 0, None, &[])
}

#[test]
fn samples() {
    use Sort::*;
    type Sample<'a> = (&'a str, u32, u32, (u32, u32), u64, &'a [(Sort, u32)]);
    #[rustfmt::skip]
    const SAMPLES: [Sample; 22] = [
        ("f(a", 1, 64, (8, 3), 0xc6bfee, &[(Expression, 0)]),
        ("(a b", 1, 64, (8, 2), 0xc69fee, &[(Expression, 0)]),
        ("x = y = z;", 1, 64, (8, 3), 0x20000c29fee, &[]),
        ("for", 1, 64, (10, 0), 0x1dfbdf1b0016, &[]),
        ("{ let x }", 1, 64, (8, 3), 1, &[(Block, 0)]),
        ("if a", 1, 64, (8, 2), 0xd29fee, &[(If, 0), (Block, 2)]),
        ("if a { } else", 2, 64, (8, 5), 0x200100000, &[(If, 0), (Block, 5)]),
        ("import", 1, 64, (8, 1), 0x80000000000, &[]),
        ("| x |", 1, 64, (9, 3), 0xde2011b0016, &[(Expression, 0), (Expression, 3)]),
        ("-", 1, 64, (9, 1), 0xde2011b0016, &[(Expression, 0), (Sign, 0)]),
        (";", 1, 64, (9, 0), 0x1dfbdf1b0016, &[(Expression, 0)]),
        ("while a { } else", 2, 64, (9, 4), 0x1ffbdf1b0016, &[(Expression, 4)]),
        // what the editions have of their own: `not`, a bare `return`, and a chain after a `)`
        ("not", 1, 64, (9, 1), 0xde2011b0016, &[(Expression, 0), (Expression, 1)]),
        ("not", 2, 64, (9, 1), 0xde2011b0016, &[(Expression, 0), (Sign, 0)]),
        ("return;", 1, 64, (9, 1), 0xde2011b0016, &[(Expression, 1)]),
        ("return", 2, 64, (9, 1), 0xfe2011b0016, &[(Expression, 1)]),
        ("{ return", 2, 64, (9, 2), 0xfe2013b0016, &[(Block, 0), (Expression, 2)]),
        ("(f)(x);", 1, 64, (8, 3), 0x20000c01fef, &[]),
        ("(f) x;", 2, 64, (8, 3), 0x20000c29fef, &[]),
        // too deep
        ("((a));", 1, 2, (11, 2), 0, &[(Expression, 0), (Expression, 1)]),
        ("not a;", 1, 1, (11, 1), 0, &[(Expression, 0)]),
        ("not a;", 2, 1, (11, 0), 0, &[(Expression, 0)]),
    ];
    let mut rooms = Rooms::for_tokens(16);
    for (text, edition, limit, place, kinds, open) in SAMPLES {
        let why = rooms.read_with(Builtins::NONE, text.as_bytes(), Edition(edition), limit).unwrap_err();
        assert_eq!(
            ((why.code as u32, why.at), why.edition, why.limit),
            (place, Edition(edition), limit),
            "{text}"
        );
        let told = rooms.expected(why);
        hold(&told);
        assert_eq!((told.bits(), told.count()), (kinds, kinds.count_ones()), "{text}");
        assert!(
            told.open().iter().map(|&Opening { sort, at }| (sort, at)).eq(open.iter().copied()),
            "{text}"
        );
        // the tokens up to the place are enough, and a number that is left over in the list does not matter
        let upto = TOKEN_WIDTH * (why.at as usize + 1);
        assert_eq!(expected(&rooms.list[..upto], why), told);
        assert_eq!(expected(&rooms.list[..upto + 1], why), told);
        assert!(nothing(&expected(&rooms.list[..upto - 1], why)));
        // another code, token, edition that is none, or limit that is none
        let others = [
            Refusal { code: if why.code == Code::Required { Code::Operand } else { Code::Required }, ..why },
            Refusal { code: Code::SmallRoom, ..why },
            Refusal { code: Code::SmallAnswer, ..why },
            Refusal { at: why.at + 1, ..why },
            Refusal { at: u32::MAX, ..why },
            Refusal { edition: Edition(0), ..why },
            Refusal { edition: Edition(3), ..why },
            Refusal { limit: 0, ..why },
            Refusal { limit: 65, ..why },
        ];
        assert!(others.iter().all(|&other| nothing(&rooms.expected(other))), "{text}");
    }
}

#[test]
fn not_in_reading() {
    let mut rooms = Rooms::for_tokens(8);
    for (text, limit, code) in
        [(&b"a @"[..], 64, 16), (b"a;", 0, 3), (b"a \x80", 64, 5), (b"a; b; c; d;", 64, 1)]
    {
        let why = rooms.read(text, limit).unwrap_err();
        assert_eq!(why.code as u32, code);
        assert!(nothing(&rooms.expected(why)));
    }
    // a 4 that is met in reading
    let mut rooms = Rooms::with_rows(1, 8, 8, 8);
    let why = rooms.read(b"a; b;", 64).unwrap_err();
    assert!(why.code == Code::SmallRoom && why.found.is_some() && nothing(&rooms.expected(why)));
}

/// Each refused case of the list, in both editions and some limits. The refused kind is not in the set. With a kind of the set
/// in its place reading goes on, and with Eof the script is whole; with any other it is refused there as well. Either may be
/// refused for its depth first, which the set does not know.
#[test]
fn each_kind_of_the_list() {
    let (mut rest, mut rooms) = (LIST, Rooms::for_tokens(513)); // an Eof more than a case has tokens
    let (mut told_of, mut deep, mut tried) = (0, 0, 0);
    while let Some(case) = frame(&mut rest) {
        let Some((text, tokens)) = decode(case) else { continue };
        for (edition, limit) in
            [1, 2].into_iter().flat_map(|edition| [1, 2, 3, 5, 64].map(|limit| (Edition(edition), limit)))
        {
            let Err(why) = rooms.parse_with(Builtins::NONE, text, &tokens, edition, limit) else { continue };
            let told = expected(&tokens, why);
            hold(&told);
            if why.code == Code::TooDeep {
                deep += 1;
                assert_eq!((told.count(), told.open().len()), (0, limit as usize));
                continue;
            }
            if !(Code::Required..=Code::For).contains(&why.code) {
                assert!(nothing(&told));
                continue;
            }
            told_of += 1;
            let place = why.at as usize;
            assert!(told.count() > 0 && told.open().len() <= limit as usize);
            assert!(told.open().iter().all(|opening| opening.at <= why.at));
            assert!(!told.contains(why.found.unwrap()));
            if limit != 64 {
                continue;
            }
            let kinds = tokens.chunks_exact(TOKEN_WIDTH).map(|token| token[0]);
            let mut kinds: Vec<u32> = kinds.take(place).chain([EOF, EOF]).collect();
            assert_eq!(
                refused(&mut rooms, &kinds[..=place], edition, limit).is_none(),
                told.contains(Kind::Eof)
            );
            for kind in 0..EOF {
                kinds[place] = kind;
                let then = refused(&mut rooms, &kinds, edition, limit);
                let there = then.filter(|then| then.at == why.at);
                let too_deep = there.is_some_and(|there| there.code == Code::TooDeep);
                assert!(too_deep || there.is_none() == told.contains(Kind::ALL[kind as usize]), "{kinds:?}");
                tried += 1;
            }
        }
    }
    assert!(
        told_of > 1000 && deep > 500 && tried > 10_000,
        "{told_of} told of, {deep} too deep, {tried} tried"
    );
}

/// For depth as many are open as the limit, from the outside in.
#[test]
fn as_many_as_the_limit() {
    let mut rooms = Rooms::for_tokens(512);
    let signed = |i: u32| if i == 0 { (Sort::Expression, 0) } else { (Sort::Sign, i - 1) };
    let openers: [(&str, u32, &dyn Fn(u32) -> (Sort, u32)); 7] = [
        ("(", 1, &|i| (Sort::Expression, i)),
        ("{", 2, &|i| (Sort::Block, i)),
        ("-", 1, &signed),
        ("not ", 1, &|i| (Sort::Expression, i)),
        ("not ", 2, &signed),
        ("f(", 2, &|i| (Sort::Expression, 2 * i)),
        ("if a { } else ", 1, &|i| (Sort::If, 5 * i)),
    ];
    for limit in 1..=MAX_DEPTH {
        for (opener, edition, opening) in openers {
            let text = opener.repeat(100);
            let why = rooms.read_with(Builtins::NONE, text.as_bytes(), Edition(edition), limit).unwrap_err();
            let told = rooms.expected(why);
            hold(&told);
            assert_eq!((why.code, told.count(), told.lowest()), (Code::TooDeep, 0, None), "{opener} {limit}");
            let open = told.open().iter().map(|&Opening { sort, at }| (sort, at));
            assert!(open.eq((0..limit).map(opening)), "{opener} {limit}: {told:?}");
        }
    }
}

/// Whatever is asked of whatever numbers, there is an answer.
#[test]
fn any_numbers() {
    let mut state = 20261117u64;
    let mut roll = |sides: u32| {
        state = state.wrapping_mul(6_364_136_223_846_793_005).wrapping_add(1_442_695_040_888_963_407);
        (state >> 33) as u32 % sides
    };
    let (mut sets, mut chains) = (0, 0);
    for _ in 0..100_000 {
        let few = [0, 2, 17, 20, 24, 33, 35, 41, 43]; // = - ( { not if return ; a
        let numbers = (0..roll(30)).map(|i| match (i % 3, roll(32)) {
            (_, 0) => u32::MAX - roll(3),
            (0, 1..=4) => roll(48),
            _ => few[roll(9) as usize],
        });
        let tokens: Vec<u32> = numbers.collect();
        let mut near = |bound| if roll(16) == 0 { u32::MAX - roll(3) } else { roll(bound) };
        let why = Refusal {
            code: Code::from_u32(if near(4) == 0 { near(14) } else { 8 + near(4) % 4 })
                .unwrap_or(Code::BadNames),
            at: near(5),
            span: Span { start: near(9), end: near(9) },
            byte: None,
            expected: None,
            found: None,
            edition: Edition(near(4)),
            limit: near(70),
            guard: false,
        };
        let told = expected(&tokens, why);
        hold(&told);
        let there = tokens.get(TOKEN_WIDTH * why.at as usize);
        assert!(there.is_none_or(|&kind| told.bits().checked_shr(kind).is_none_or(|rest| rest & 1 == 0)));
        assert!((Code::Required..=Code::TooDeep).contains(&why.code) || nothing(&told));
        sets += usize::from(told.count() > 0);
        chains += usize::from(!told.open().is_empty());
        let rooms = Rooms { list: tokens, ..Rooms::default() };
        assert_eq!(rooms.expected(why), told);
    }
    assert!(sets > 500 && chains > 500, "{sets} sets, {chains} chains");
}
