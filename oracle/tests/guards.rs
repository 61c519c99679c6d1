//! Request L9: guards as the oracle answers them, in which order they are refused, and that a guard is read as the one statement
//! of a script is.
use oracle::{
    beside::{FAULTS, right_and_wrong},
    builtins::Builtins,
    case::{Case, Token},
    drawn::Cases,
    editions::Sort,
    guards::{self, LADDERS, WRONG},
    judge,
    kinds::{EOF, OUTSIDE, spelling},
    list::script,
    random::Random,
    rooms::{Judge, Known, Lent, Rooms},
    rows::{ABSENT, NODE_WIDTH, Outcome, PARENT, Refusal, Rows},
    terms::{Call, FIRST, SECOND, Terms},
    tight::{Comes, rooms_of},
};

fn known(edition: u32, case: Case, limit: u32) -> Known {
    Known::of(case, Call::guard(Terms { edition, limit }))
}

/// The answer's lines, as numbers.
fn lines(lent: &Lent) -> Vec<Vec<u32>> {
    let answer = String::from_utf8(Judge::default().answer(&lent.encode())).unwrap();
    let numbers = |line: &str| line.split_whitespace().map(|number| number.parse().unwrap()).collect();
    answer.lines().map(numbers).collect()
}

fn answer(edition: u32, text: &str, limit: u32, rooms: Rooms) -> Vec<Vec<u32>> {
    lines(&known(edition, script(text), limit).lent_all(rooms))
}

/// Edition, guard, limit, and the eight numbers in rooms with a row for each token.
#[rustfmt::skip]
const ANSWERS: &[(u32, &str, u32, [u32; 8])] = &[
    (1, "typed == 0 and refreshed", 64, [0, 5, 0, 2, 0, 0, 0, 255]),
    (1, "a", 64, [0, 1, 0, 1, 0, 0, 0, 255]),
    (1, "a", 1, [0, 1, 0, 1, 0, 0, 0, 255]),
    (1, "f(a,)", 64, [0, 3, 1, 2, 0, 0, 0, 255]),
    (1, "f(x) + 1", 64, [0, 5, 1, 2, 0, 0, 0, 255]),
    (1, "\"{\" == \"if\"", 64, [0, 3, 0, 2, 0, 0, 0, 255]),
    // no operand
    (1, "", 64, [9, 0, 0, 0, 0, 0, 0, 255]),
    (1, "for", 64, [9, 0, 0, 0, 0, 0, 3, 255]),
    (1, "let a = b", 64, [9, 0, 0, 0, 0, 0, 3, 255]),
    (1, "return", 64, [9, 0, 0, 0, 0, 0, 6, 255]),
    (2, "return", 64, [9, 0, 0, 0, 0, 0, 6, 255]),
    (2, "return;", 64, [9, 0, 0, 0, 0, 0, 6, 255]),
    (1, "a +", 64, [9, 0, 0, 0, 2, 3, 3, 255]),
    // tokens that remain
    (1, "a;", 64, [8, 0, 0, 0, 1, 1, 2, 44]),
    (2, "a;", 64, [8, 0, 0, 0, 1, 1, 2, 44]),
    (1, "a b", 64, [8, 0, 0, 0, 1, 2, 3, 44]),
    (1, "a = b", 64, [8, 0, 0, 0, 1, 2, 3, 44]),
    (1, "a }", 64, [8, 0, 0, 0, 1, 2, 3, 44]),
    (1, "a for", 64, [8, 0, 0, 0, 1, 2, 5, 44]),
    // another kind
    (1, "(a", 64, [8, 0, 0, 0, 2, 2, 2, 18]),
    (1, "(a;", 64, [8, 0, 0, 0, 2, 2, 3, 18]),
    (1, "f(a", 64, [8, 0, 0, 0, 3, 3, 3, 13]),
    (1, "f(a,", 64, [8, 0, 0, 0, 4, 4, 4, 18]),
    (1, "f(a b)", 64, [8, 0, 0, 0, 3, 4, 5, 13]),
    (1, "a.1", 64, [8, 0, 0, 0, 2, 2, 3, 43]),
    // depth
    (1, "((a))", 2, [11, 0, 0, 0, 2, 2, 3, 255]),
    (1, "((a))", 3, [0, 1, 0, 1, 0, 0, 0, 255]),
    (1, "+a", 1, [11, 0, 0, 0, 0, 0, 1, 255]),
    (1, "not a", 1, [11, 0, 0, 0, 1, 4, 5, 255]),
    (2, "not a", 1, [11, 0, 0, 0, 0, 0, 3, 255]),
    (1, "(", 1, [11, 0, 0, 0, 1, 1, 1, 255]),
    // editions
    (1, "not a and b", 64, [0, 4, 0, 2, 0, 0, 0, 255]),
    (2, "not a and b", 64, [0, 4, 0, 2, 0, 0, 0, 255]),
    (1, "(a)(b)", 64, [8, 0, 0, 0, 3, 3, 4, 44]),
    (2, "(a)(b)", 64, [0, 3, 1, 2, 0, 0, 0, 255]),
    // outside the profile: the first such token, whatever reading would say before it
    (1, "{", 64, [17, 0, 0, 0, 0, 0, 1, 255]),
    (1, "if", 64, [17, 0, 0, 0, 0, 0, 2, 255]),
    (1, "|", 64, [17, 0, 0, 0, 0, 0, 1, 255]),
    (1, "#", 64, [17, 0, 0, 0, 0, 0, 1, 255]),
    (2, "# { | if", 64, [17, 0, 0, 0, 0, 0, 1, 255]),
    (1, "a and {", 64, [17, 0, 0, 0, 2, 6, 7, 255]),
    (1, "a; {", 64, [17, 0, 0, 0, 2, 3, 4, 255]),
    (1, "+ * if", 64, [17, 0, 0, 0, 2, 4, 6, 255]),
    (1, "for #", 64, [17, 0, 0, 0, 1, 4, 5, 255]),
    (1, "((a | b {", 2, [17, 0, 0, 0, 3, 4, 5, 255]),
];

/// `cargo test --release --test guards answers -- --nocapture` prints them.
#[test]
fn answers() {
    for (edition, text, limit, numbers) in ANSWERS {
        let known = known(*edition, script(text), *limit);
        let given = lines(&known.lent_all(known.ample()));
        println!("edition {edition}, limit {limit}, {text}: {:?}", given[0]);
        assert_eq!(given[0], numbers, "edition {edition}, limit {limit}, {text}");
        // 17 leaves the rooms as they were, a refusal in reading leaves them zero
        let left = if numbers[0] == 17 { 7 } else { 0 };
        let is_left = given[1..].iter().flatten().all(|number| *number == left);
        assert!(numbers[0] == 0 || is_left, "{text}");
    }
}

#[test]
fn rows() {
    let name = |start, end, symbol, parent| [10, start, end, symbol, start, end, 0, 0, 0, parent];
    assert_eq!(answer(1, "a", 64, [10, 0, 2, 6])[1], name(0, 1, 0, ABSENT));
    // numbers left over are zero
    let told = " 0 1 0 1 0 0 0 255\n 10 0 1 0 0 1 0 0 0 4294967295 0\n 0\n 0 1 0\n 0 0 0 0 0 0 0\n";
    let a = known(1, script("a"), 64);
    assert_eq!(Judge::default().answer(&a.lent_all([11, 1, 3, 7]).encode()), told.as_bytes());
    let guard = answer(1, "typed == 0 and refreshed", 64, [50, 3, 4, 18]);
    let nodes = [
        name(0, 5, 0, 2),
        [12, 9, 10, 0, 0, 0, 0, 0, 0, 2],
        [1, 0, 10, 5, 0, 1, 0, 0, 0, 4],
        name(15, 24, 1, 4),
        [2, 0, 24, 2, 3, 0, 0, 0, 0, ABSENT],
    ];
    assert_eq!(guard[1], nodes.concat());
    assert_eq!([&guard[2], &guard[3]], [&vec![0; 3], &vec![0, 5, 15, 24]]);
    // the whole is what stands in parentheses
    assert_eq!(answer(1, "(a)", 64, [10, 0, 2, 12])[1], name(1, 2, 0, ABSENT));
}

#[test]
fn ladders() {
    for edition in [FIRST, SECOND] {
        for (text, limit, steps) in LADDERS {
            let case = script(text);
            for (rows, comes) in *steps {
                let answer = answer(edition, text, *limit, rooms_of(&case, *rows));
                let (code, at, expected) = match *comes {
                    Comes::Accepted => {
                        assert_eq!((answer[0][0], answer[0][7]), (0, 255), "{text} {rows:?}");
                        continue;
                    }
                    Comes::Short(at) => (4, at, 255),
                    Comes::Refused(code, at, expected) => (code, at, expected),
                };
                let Token { start, end, .. } = case.tokens[at as usize];
                assert_eq!(answer[0], [code, 0, 0, 0, at, start, end, expected], "{text} {rows:?}");
                assert!(answer[1..].iter().flatten().all(|number| *number == 0), "{text} {rows:?}");
            }
        }
    }
}

/// 1, 3, 21, 4, 18, 4, 5, 6, 7, 17, and then the reading; a text that is too long does not go into a frame.
#[test]
fn order_of_refusals() {
    let order = [1, 3, 4, 4, 5, 6, 7]; // of the faults, without names and edition
    for (is_wrong, names) in right_and_wrong().into_iter().enumerate() {
        for faults in 0..1 << (FAULTS - 1) {
            for (edition, is_named) in [(1, true), (2, true), (0, false), (3, false), (u32::MAX, false)] {
                for (text, own) in WRONG.into_iter().zip([0, 8, 17, 17]) {
                    let answer = lines(&guards::faulty(edition, text, &names, faults));
                    let at = |fault: usize| (faults & 1 << fault != 0).then_some(order[fault]);
                    let found = (at(0).or(at(1)))
                        .or((!is_named).then_some(21))
                        .or(at(2))
                        .or((is_wrong == 1).then_some(18))
                        .or((3..FAULTS - 1).find_map(at));
                    let code = found.unwrap_or(own);
                    assert_eq!(answer[0][0], code, "{text}, faults {faults:b}, edition {edition}");
                    let is_left = answer[1..].iter().flatten().all(|number| *number == 7);
                    assert_eq!(is_left, ![0, 8].contains(&code), "{text}, faults {faults:b}");
                }
            }
        }
    }
}

/// Exactly four kinds are outside, wherever they stand.
#[test]
fn outside() {
    assert_eq!(OUTSIDE.map(spelling), ["{", "if", "|", "#"].map(Some));
    for kind in 0..EOF {
        let Some(spelling) = spelling(kind) else { continue };
        for (text, at) in
            [(format!("{spelling} a"), 0), (format!("a ) {spelling}"), 2), (format!("a {spelling} b"), 1)]
        {
            let answer = answer(FIRST, &text, 64, [40, 12, 8, 12]);
            let is_outside = answer[0][0] == 17;
            assert_eq!(is_outside, OUTSIDE.contains(&kind), "{text}");
            assert!(!is_outside || answer[0][4] == at, "{text}");
        }
    }
}

/// The first so many tokens of a guard as a script of one statement.
fn statement(case: &Case, count: usize) -> Case {
    let end = case.tokens[count].start;
    let mut text = case.text[..end as usize].to_vec();
    text.push(b';');
    let semicolon = Token { kind: 41, start: end, end: end + 1 };
    let eof = Token { kind: EOF, start: end + 1, end: end + 1 };
    Case { text, tokens: [&case.tokens[..count], &[semicolon, eof]].concat() }
}

/// A guard's rows as those of a script with this one statement.
fn with_root(mut rows: Rows) -> Rows {
    let number = rows.nodes.len() as u32;
    let expression = rows.nodes.last_mut().expect("a row");
    assert_eq!(expression[PARENT], ABSENT);
    expression[PARENT] = number;
    let mut root = [0; NODE_WIDTH];
    root[..6].copy_from_slice(&[20, 0, 0, rows.links.len() as u32, 1, ABSENT]);
    root[PARENT] = ABSENT;
    rows.nodes.push(root);
    rows.links.push([number - 1, 0, 0]);
    rows
}

/// An accepted guard is an accepted script once a `;` stands behind it: with the same rows, asked for at the same tokens, and a
/// root. Where Eof is required, what stands before is such a guard. Any other guard is no such statement.
#[test]
fn guards_and_statements() {
    oracle::with_large_stack(|| {
        let (mut accepted, mut cut, mut refused) = (0, 0, 0);
        for edition in [FIRST, SECOND] {
            let cases = Cases::guards(edition, 5);
            for (index, case) in
                (0..30_000).filter_map(|index| Some((index, Case::decode(&cases.get(index))?)))
            {
                let limit = Random::of(7, index).pick(&[64, 64, 64, 64, 1, 2, 3, 4]);
                let guard = known(edition, case.clone(), limit);
                let terms = Terms { edition, limit };
                let read = |count| Known::of(statement(&case, count), terms);
                let last = case.tokens.len().saturating_sub(1);
                match guard.outcome() {
                    Outcome::Accepted(rows) => {
                        let script = read(last);
                        assert_eq!(*script.outcome(), Outcome::Accepted(with_root(rows.clone())), "{case:?}");
                        assert_eq!(guard.asked(), &script.asked()[..script.asked().len() - 2], "{case:?}");
                        accepted += 1;
                    }
                    Outcome::Refused(Refusal { code: 8, at, expected: 44, .. }) => {
                        let mut before = case.clone();
                        before.tokens.truncate(*at as usize);
                        before.tokens.push(Token { kind: EOF, ..case.tokens[*at as usize] });
                        let before = known(edition, before, limit);
                        let Outcome::Accepted(rows) = before.outcome() else { panic!("{case:?}") };
                        let script = read(*at as usize);
                        assert_eq!(*script.outcome(), Outcome::Accepted(with_root(rows.clone())), "{case:?}");
                        assert_eq!(guard.asked(), before.asked(), "{case:?}");
                        cut += 1;
                    }
                    Outcome::Refused(refusal) if refusal.code >= 8 && refusal.code <= 11 => {
                        if let Outcome::Accepted(rows) = read(last).outcome() {
                            let [.., statement, root] = &rows.nodes[..] else { panic!("{case:?}") };
                            let is_expression =
                                [1..=5, 10..=16].iter().any(|kinds| kinds.contains(&statement[0]));
                            assert!(root[4] != 1 || !is_expression, "{case:?}");
                        }
                        refused += 1;
                    }
                    Outcome::Refused(_) => {}
                }
            }
        }
        let counts = [accepted, cut, refused];
        assert!(counts.iter().all(|count| *count > 3_000), "{counts:?}");
    });
}

/// Beside built-in names a guard has their symbols, and the symbol room holds their rows first.
#[test]
fn names() {
    let two = Builtins { text: b"print advance".into(), rows: vec![0, 5, 6, 13] };
    let call = Call::guard(Terms { edition: FIRST, limit: 64 });
    let answer = |text: &str, symbols: u32| {
        let known = Known::beside(two.clone(), script(text), call);
        let [nodes, links, _, scratch] = known.ample();
        lines(&known.lent_all([nodes, links, symbols, scratch]))
    };
    let given = answer("advance(x)", 6);
    assert_eq!(given[0], [0, 3, 1, 3, 0, 0, 0, 255]);
    assert_eq!(given[3], [0, 5, 6, 13, 8, 9]);
    assert_eq!(given[1][3], 1);
    assert_eq!(answer("advance(x)", 5)[0], [4, 0, 0, 0, 2, 8, 9, 255]);
    assert_eq!(answer("\"print\"", 4)[0], [0, 1, 0, 2, 0, 0, 0, 255]);
    assert_eq!(answer("{", 3)[0], [4, 0, 0, 0, 0, 0, 0, 255]);
    assert_eq!(answer("{", 4)[0], [17, 0, 0, 0, 0, 0, 1, 255]);
}

#[test]
fn frames() {
    let lent = known(SECOND, script("a"), 64).lent_all([10, 0, 2, 6]);
    let frame = lent.encode();
    let head = b"RQ\x02\0\0\0\x40\0\0\0\x0A\0\0\0\0\0\0\0\x02\0\0\0\x06\0\0\0\0\0\0\0\0\0\0\0";
    assert_eq!(frame[..head.len()], head[..]);
    assert_eq!(frame[head.len()..], lent.input);
    assert_eq!(Lent::decode(&frame), Some(lent.clone()));
    // after the mark all is as in a script's frame
    let same = Lent { is_guard: false, ..lent }.encode();
    assert_eq!((&same[..2], &same[2..]), (&b"RO"[..], &frame[2..]));
    let mut judge = Judge::default();
    assert!(judge.answer(&same).starts_with(b" 8 0 0 0 1 1 1 41\n"));
    assert!(judge.answer(&frame).starts_with(b" 0 1 0 1 0 0 0 255\n"));
    assert!(judge.answer(&same).starts_with(b" 8 0 0 0 1 1 1 41\n"));
    for length in [0, 1, 2, 5, 6, 33, 34, frame.len() - 1] {
        assert_eq!(judge.answer(&frame[..length]), b"bad input\n", "{length} bytes");
    }
    for (edition, sort) in [(None, Sort::Plain), (Some(SECOND), Sort::Tight), (Some(FIRST), Sort::Named)] {
        let frames = |seed| guards::frames(edition, seed, sort).take(6_000);
        assert!(frames(1).eq(frames(1)));
        assert!(frames(2).all(|frame| frame.starts_with(b"RQ") && frame.len() < 65_536));
    }
    // without an edition all are of edition 1
    let edition = |frame: &Vec<u8>| Lent::decode(frame).map_or(Some(FIRST), |lent| lent.edition);
    assert!(guards::frames(None, 1, Sort::Named).take(6_000).all(|frame| edition(&frame) == Some(FIRST)));
}

/// The four kinds are expressions to the original: without the door's 17 it reads them.
#[test]
fn read_by_the_original() {
    for text in ["{}", "{ a }", "if a {}", "|x| x", "#{}", "a + { b }"] {
        let read = judge::read(&Builtins::default(), &script(text), Call::guard(64));
        assert!(matches!(read.outcome, Outcome::Accepted(_)), "{text}");
        let known = known(FIRST, script(text), 64);
        assert_eq!(lines(&known.lent_all(known.ample()))[0][0], 17, "{text}");
    }
}
