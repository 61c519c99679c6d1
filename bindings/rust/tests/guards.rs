//! Guards: one expression and then the Eof. Held to the numbers of crates/grammar/specs/Samples.antt, and to the script that a
//! guard is with a `;` behind it.
#[allow(dead_code)]
mod rows;

use kaori_syntax::{
    Builtins, Code, Edition, Kind, LINK_WIDTH, NODE_WIDTH, Node, OwnedBuiltins, Refusal, Rooms, SYMBOL_WIDTH,
    Span, TOKEN_WIDTH, Tree, expected,
};
use rows::{answer, decode, frame};

const LIST: &[u8] = include_bytes!("../../../crates/replay/stdin");
const ABSENT: u32 = u32::MAX;
const EDITIONS: [Edition; 2] = [Edition::FIRST, Edition::SECOND];
/// The kinds that no guard has.
const OUTSIDE: [Kind; 4] = [Kind::LeftBrace, Kind::If, Kind::Pipe, Kind::Hash];

fn guard<'a>(rooms: &'a mut Rooms, text: &'a str, edition: u32, limit: u32) -> Result<Tree<'a>, Refusal> {
    rooms.read_guard_with(Builtins::NONE, text.as_bytes(), Edition(edition), limit)
}

fn four(rooms: &Rooms) -> [&Vec<u32>; 4] {
    [&rooms.nodes, &rooms.links, &rooms.symbols, &rooms.scratch]
}

/// Rooms that hold 7 throughout.
fn stale(tokens: usize) -> Rooms {
    let mut rooms = Rooms::for_tokens(tokens);
    let Rooms { nodes, links, symbols, scratch, list } = &mut rooms;
    for room in [nodes, links, symbols, scratch, list] {
        room.fill(7);
    }
    rooms
}

/// Whether the four rooms hold a number throughout.
fn hold(rooms: &Rooms, number: u32) -> bool {
    four(rooms).iter().all(|room| room.iter().all(|&held| held == number))
}

fn numbers(tree: &Tree) -> [Vec<u32>; 3] {
    [tree.node_rows().concat(), tree.link_rows().concat(), tree.symbol_rows().concat()]
}

/// A text, its edition and limit, and its rows.
type Accepted<'a> = (&'a str, u32, u32, &'a [[u32; NODE_WIDTH]], &'a [u32], &'a [u32]);

#[rustfmt::skip]
const ACCEPTED: [Accepted; 9] = [
    ("a", 1, 1, &[[10, 0, 1, 0, 0, 1, 0, 0, 0, ABSENT]], &[], &[0, 1]),
    ("typed == 0 and refreshed", 1, 64, &[
        [10, 0, 5, 0, 0, 5, 0, 0, 0, 2], [12, 9, 10, 0, 0, 0, 0, 0, 0, 2], [1, 0, 10, 5, 0, 1, 0, 0, 0, 4],
        [10, 15, 24, 1, 15, 24, 0, 0, 0, 4], [2, 0, 24, 2, 3, 0, 0, 0, 0, ABSENT],
    ], &[], &[0, 5, 15, 24]),
    ("f(x).y", 1, 64, &[
        [10, 0, 1, 0, 0, 1, 0, 0, 0, 2], [10, 2, 3, 1, 2, 3, 0, 0, 0, 2], [15, 1, 4, 0, 0, 1, 0, 0, 0, 3],
        [16, 4, 6, 2, 2, 5, 6, 0, 0, ABSENT],
    ], &[1, 0, 0], &[0, 1, 2, 3, 5, 6]),
    ("-(a) + 1", 1, 64, &[
        [10, 2, 3, 0, 2, 3, 0, 0, 0, 1], [5, 0, 3, 0, 0, 0, 0, 0, 0, 3], [12, 7, 8, 0, 0, 0, 0, 0, 0, 3],
        [1, 0, 8, 0, 1, 2, 0, 0, 0, ABSENT],
    ], &[], &[2, 3]),
    ("\"s\"", 1, 64, &[[11, 0, 3, 0, 0, 0, 0, 0, 0, ABSENT]], &[], &[1, 2]),
    ("((a))", 1, 3, &[[10, 2, 3, 0, 2, 3, 0, 0, 0, ABSENT]], &[], &[2, 3]),
    // the editions: `not`, and a call after parentheses
    ("not a and b", 1, 64, &[
        [10, 4, 5, 0, 4, 5, 0, 0, 0, 2], [10, 10, 11, 1, 10, 11, 0, 0, 0, 2], [2, 4, 11, 0, 1, 0, 0, 0, 0, 3],
        [4, 0, 3, 2, 0, 0, 0, 0, 0, ABSENT],
    ], &[], &[4, 5, 10, 11]),
    ("not a and b", 2, 64, &[
        [10, 4, 5, 0, 4, 5, 0, 0, 0, 1], [4, 0, 5, 0, 0, 0, 0, 0, 0, 3], [10, 10, 11, 1, 10, 11, 0, 0, 0, 3],
        [2, 0, 11, 1, 2, 0, 0, 0, 0, ABSENT],
    ], &[], &[4, 5, 10, 11]),
    ("(a)(b)", 2, 64, &[
        [10, 1, 2, 0, 1, 2, 0, 0, 0, 2], [10, 4, 5, 1, 4, 5, 0, 0, 0, 2], [15, 3, 6, 0, 0, 1, 0, 0, 0, ABSENT],
    ], &[1, 0, 0], &[1, 2, 4, 5]),
];

#[test]
fn accepted() {
    for (text, edition, limit, nodes, links, symbols) in ACCEPTED {
        let mut rooms = stale(16);
        let tree = guard(&mut rooms, text, edition, limit).unwrap();
        assert_eq!(numbers(&tree), [nodes.concat(), links.to_vec(), symbols.to_vec()], "{text}");
        assert_eq!(tree.root().map(|row| (row.number as usize, row.parent)), Some((nodes.len() - 1, None)));
        assert_eq!(
            (tree.text(), tree.tokens().iter().next_back().unwrap().kind),
            (text.as_bytes(), Kind::Eof)
        );
        let printed = answer(Ok(tree));
        let used = [nodes.len() * NODE_WIDTH, links.len(), symbols.len(), 0];
        assert!(four(&rooms).iter().zip(used).all(|(room, used)| room[used..].iter().all(|&n| n == 0)));
        // the tokens that were made have the same answer
        let tokens = made(&rooms);
        let mut others = stale(16);
        let from_list =
            others.guard_with(Builtins::NONE, text.as_bytes(), &tokens, Edition(edition), limit).unwrap();
        assert_eq!(answer(Ok(from_list)), printed);
        if edition == 1 {
            assert_eq!(answer(rooms.guard(text.as_bytes(), limit)), printed);
        }
    }
}

/// The tokens that were made, up to their Eof.
fn made(rooms: &Rooms) -> Vec<u32> {
    let eof = rooms.list.chunks_exact(TOKEN_WIDTH).position(|token| token[0] == Kind::Eof as u32).unwrap();
    rooms.list[..TOKEN_WIDTH * (eof + 1)].to_vec()
}

/// A text, its edition and limit, and the code, the token, where that starts and ends, the kind that was required and the one
/// that was found.
type Refused<'a> = (&'a str, u32, u32, (u32, u32, u32, u32), Option<Kind>, Kind);

#[rustfmt::skip]
const REFUSED: [Refused; 22] = [
    ("a;", 1, 64, (8, 1, 1, 2), Some(Kind::Eof), Kind::Semicolon),
    ("a;", 2, 64, (8, 1, 1, 2), Some(Kind::Eof), Kind::Semicolon),
    ("a b", 1, 64, (8, 1, 2, 3), Some(Kind::Eof), Kind::Identifier),
    ("a = b", 1, 64, (8, 1, 2, 3), Some(Kind::Eof), Kind::Assign),
    ("a }", 1, 64, (8, 1, 2, 3), Some(Kind::Eof), Kind::RightBrace),
    ("(a)(b)", 1, 64, (8, 3, 3, 4), Some(Kind::Eof), Kind::LeftParen),
    ("(a", 1, 64, (8, 2, 2, 2), Some(Kind::RightParen), Kind::Eof),
    ("f(a", 1, 64, (8, 3, 3, 3), Some(Kind::Comma), Kind::Eof),
    ("", 1, 64, (9, 0, 0, 0), None, Kind::Eof),
    ("for", 1, 64, (9, 0, 0, 3), None, Kind::For),
    ("return a", 2, 64, (9, 0, 0, 6), None, Kind::Return),
    ("a +", 2, 64, (9, 2, 3, 3), None, Kind::Eof),
    ("((a))", 1, 2, (11, 2, 2, 3), None, Kind::Identifier),
    ("not a", 1, 1, (11, 1, 4, 5), None, Kind::Identifier),
    ("not a", 2, 1, (11, 0, 0, 3), None, Kind::Not),
    // the first of the four, whatever stands before and behind it
    ("a {", 1, 64, (17, 1, 2, 3), None, Kind::LeftBrace),
    ("a {", 2, 64, (17, 1, 2, 3), None, Kind::LeftBrace),
    ("if a", 1, 64, (17, 0, 0, 2), None, Kind::If),
    ("|x| x", 2, 64, (17, 0, 0, 1), None, Kind::Pipe),
    ("f(#{})", 1, 64, (17, 2, 2, 3), None, Kind::Hash),
    ("a; for b if {", 1, 64, (17, 4, 9, 11), None, Kind::If),
    ("((a)) |", 1, 1, (17, 5, 6, 7), None, Kind::Pipe),
];

#[test]
fn refused() {
    for (text, edition, limit, (code, at, start, end), required, found) in REFUSED {
        let mut rooms = stale(16);
        let why = guard(&mut rooms, text, edition, limit).unwrap_err();
        let told = Refusal {
            code: Code::from_u32(code).unwrap(),
            at,
            span: Span { start, end },
            byte: None,
            expected: required,
            found: Some(found),
            edition: Edition(edition),
            limit,
            guard: true,
        };
        assert_eq!(why, told, "{text}");
        assert!(hold(&rooms, if code == 17 { 7 } else { 0 }), "{text}");
        assert_eq!(why.message().as_str().is_empty(), code == 17);
        // no hint, from the rooms and from the list
        let tokens = made(&rooms);
        for told in [rooms.expected(why), expected(&tokens, why)] {
            assert_eq!((told.bits(), told.count(), told.lowest(), told.open()), (0, 0, None, &[][..]));
        }
        let mut rooms = stale(16);
        let from_list = rooms.guard_with(Builtins::NONE, text.as_bytes(), &tokens, Edition(edition), limit);
        assert_eq!(from_list.unwrap_err(), why);
        assert!(hold(&rooms, if code == 17 { 7 } else { 0 }));
        assert_eq!(rooms.grow(why), Err(why));
    }
    // what a script's hint would be is there for the script alone
    let mut rooms = Rooms::for_tokens(8);
    let why = rooms.read(b"f(a", 64).unwrap_err();
    assert!(!why.guard && rooms.expected(why).count() > 0);
    assert_eq!(rooms.expected(Refusal { guard: true, ..why }).count(), 0);
}

/// Each of the four at each place of a guard is 17 there, and of two of them it is the first; of any other kind it never is.
#[test]
fn each_kind_at_each_place() {
    const WORDS: [&str; 7] = ["not", "f", "(", "a", ")", "and", "1"];
    let spelled = |kind: Kind| match kind {
        Kind::NumberLiteral => "1".to_string(),
        Kind::StringLiteral => "\"\"".to_string(),
        Kind::Identifier => "b".to_string(),
        Kind::Eof => String::new(),
        other => other.to_string().trim_matches('`').to_string(),
    };
    for edition in [1, 2] {
        for place in 0..=WORDS.len() {
            for &kind in Kind::ALL {
                let mut words = WORDS.map(str::to_string).to_vec();
                words.insert(place, spelled(kind));
                let mut rooms = stale(16);
                let text = words.join(" ");
                let why = guard(&mut rooms, &text, edition, 64).err();
                let outside = why.filter(|why| why.code == Code::Outside);
                let seen = outside.map(|why| (why.at as usize, why.found));
                assert_eq!(seen, OUTSIDE.contains(&kind).then_some((place, Some(kind))), "{text}");
                assert!(outside.is_none() || hold(&rooms, 7));
                if outside.is_some() {
                    for other in OUTSIDE.map(spelled) {
                        let text = format!("{text} {other}");
                        assert_eq!(guard(&mut rooms, &text, edition, 64).err(), outside);
                    }
                }
            }
        }
    }
}

#[test]
fn in_order() {
    let (text, tokens) = (b"a {", [43, 0, 1, 20, 2, 3, 44, 3, 3]);
    let mut rooms = stale(8);
    let mut code = |text: &[u8], tokens: &[u32], edition, limit| {
        rooms.guard_with(Builtins::NONE, text, tokens, Edition(edition), limit).unwrap_err().code as u32
    };
    // what is refused before 17
    assert_eq!((code(text, &tokens[..8], 3, 0), code(&[b'a'; 65_537], &tokens, 3, 0)), (1, 2));
    assert_eq!(
        (code(text, &tokens, 3, 0), code(text, &tokens, 3, 64), code(text, &tokens, 1, 65)),
        (3, 21, 3)
    );
    assert_eq!((code(b"a {\x80", &tokens, 1, 64), code(b"a (", &tokens, 1, 64)), (5, 6));
    assert_eq!((code(text, &tokens[..6], 2, 64), code(text, &tokens, 2, 64)), (7, 17));
    let wrong = OwnedBuiltins::new(&["if"]);
    let code = |names, symbols, scratch, text| {
        let mut rooms = stale(8);
        rooms.symbols.truncate(SYMBOL_WIDTH * symbols);
        rooms.scratch.truncate(scratch);
        let why = rooms.read_guard_with(names, text, Edition::FIRST, 64).unwrap_err();
        assert!(hold(&rooms, 7));
        (why.code as u32, why.found.is_some())
    };
    let right = OwnedBuiltins::new(&["f", "g"]);
    assert_eq!(code(wrong.lend(), 8, 8, &text[..]), (4, false));
    assert_eq!(code(wrong.lend(), 0, 9, &text[..]), (18, false));
    assert_eq!(code(right.lend(), 1, 9, &text[..]), (4, false));
    assert_eq!(code(right.lend(), 2, 9, &text[..]), (17, true));
    assert_eq!(code(right.lend(), 2, 9, &b"a { @"[..]), (16, false));
    // and it comes before a row that does not fit
    let mut rooms = Rooms::with_rows(0, 0, 0, 8);
    assert_eq!(rooms.guard(text, 64).unwrap_err().code, Code::Outside);
    let why = rooms.guard(b"a", 64).unwrap_err();
    assert_eq!((why.code, why.at, why.found), (Code::SmallRoom, 0, Some(Kind::Identifier)));
}

/// The guard's own expression is an opening.
#[test]
fn as_deep_as_the_limit() {
    let mut rooms = Rooms::for_tokens(256);
    for limit in 1..=64 {
        for (opener, closer, edition) in
            [("(", ")", 1), ("f(", ")", 2), ("-", "", 1), ("not ", "", 1), ("not ", "", 2)]
        {
            let text =
                |times: u32| format!("{}a{}", opener.repeat(times as usize), closer.repeat(times as usize));
            assert!(guard(&mut rooms, &text(limit - 1), edition, limit).is_ok(), "{opener} {limit}");
            let text = text(limit);
            let why = guard(&mut rooms, &text, edition, limit).unwrap_err();
            assert_eq!((why.code, why.limit), (Code::TooDeep, limit), "{opener} {limit}");
            assert_eq!(rooms.expected(why).open(), []);
        }
    }
    assert_eq!(rooms.guard(b"a", 0).unwrap_err().code, Code::BadLimit);
    assert_eq!(rooms.guard(b"a", 65).unwrap_err().code, Code::BadLimit);
}

#[test]
fn beside_names() {
    let station = OwnedBuiltins::new(&["fetch", "advance"]);
    let mut rooms = Rooms::for_tokens_with(station.lend(), 8);
    for edition in EDITIONS {
        let tree = rooms.read_guard_with(station.lend(), b"advance(x)", edition, 64).unwrap();
        assert_eq!(
            tree.node_rows(),
            [
                [10, 0, 7, 1, 0, 7, 0, 0, 0, 2],
                [10, 8, 9, 2, 8, 9, 0, 0, 0, 2],
                [15, 7, 10, 0, 0, 1, 0, 0, 0, ABSENT]
            ]
        );
        assert_eq!(
            (tree.link_rows(), tree.symbol_rows()),
            (&[[1, 0, 0]][..], &[[0, 5], [5, 12], [8, 9]][..])
        );
        let names: Vec<_> = (0..4).map(|symbol| tree.symbol(symbol)).collect();
        assert_eq!(names, [Some(&b"fetch"[..]), Some(b"advance"), Some(b"x"), None]);
    }
    let tree = rooms.read_guard_with(station.lend(), b"\"fetch\" == fetch", Edition::SECOND, 64).unwrap();
    assert_eq!(tree.row(0).map(|row| row.node), Some(Node::String(0)));
    assert_eq!(tree.symbol_rows().len(), 2);
    // grown until all fit: the names' rows first
    let mut rooms = Rooms::with_rows(0, 0, 0, 8);
    let count = loop {
        match rooms.read_guard_with(station.lend(), b"advance(x)", Edition::FIRST, 64) {
            Ok(tree) => break tree.rows().count(),
            Err(why) => rooms.grow_with(station.lend(), why).expect("room to grow"),
        }
    };
    assert_eq!(count, 3);
}

/// Holds a guard that was read to the script that it is with a `;` behind it: the rows are the same but for the script's root,
/// its link and the last row's parent. Rooms of just these rows take it, and of a row less in any of them none do.
fn held(text: &[u8], edition: Edition, limit: u32, tree: &Tree) {
    let mut rooms = Rooms::for_tokens(512);
    let with_end = [text, b" ;"].concat();
    let script = rooms.read_with(Builtins::NONE, &with_end, edition, limit).unwrap();
    let [mut nodes, mut links, symbols] = numbers(&script);
    let last = tree.rows().count() as u32 - 1;
    let root = nodes.split_off(nodes.len() - NODE_WIDTH);
    let link = links.split_off(links.len() - LINK_WIDTH);
    assert_eq!(root, [20, 0, 0, links.len() as u32 / 3, 1, ABSENT, 0, 0, 0, ABSENT]);
    assert_eq!(link, [last, 0, 0]);
    assert_eq!(nodes.pop(), Some(last + 1));
    nodes.push(ABSENT);
    assert_eq!(numbers(tree), [nodes, links, symbols]);

    let need = [tree.node_rows().len(), tree.link_rows().len(), tree.symbol_rows().len()];
    for short in 0..=need.len() {
        let mut rows = need;
        if let Some(row) = rows.get_mut(short) {
            let Some(less) = row.checked_sub(1) else { continue };
            *row = less;
        }
        let mut rooms = Rooms::with_rows(rows[0], rows[1], rows[2], 512);
        let again = rooms.read_guard_with(Builtins::NONE, text, edition, limit);
        match again {
            Ok(again) => assert!(short == need.len() && numbers(&again) == numbers(tree)),
            Err(why) => assert!(short < need.len() && why.code == Code::SmallRoom && why.found.is_some()),
        }
    }
}

/// Each row is a child of its parent alone, all lead outward to the last one, and each covers what its children cover.
fn walked(tree: &Tree) {
    let last = tree.root().unwrap();
    assert_eq!((last.number as usize + 1, last.parent), (tree.rows().count(), None));
    let mut parents = vec![None; tree.rows().count()];
    for row in tree.rows() {
        let whole = tree.cover(row.number).unwrap();
        assert!(whole.start <= row.span.start && row.span.end <= whole.end);
        for child in tree.children(row.number) {
            let part = tree.cover(child.number).unwrap();
            assert!(child.number < row.number && whole.start <= part.start && part.end <= whole.end);
            assert_eq!(parents[child.number as usize].replace(row.number), None);
        }
        let back = tree.children(row.number).rev().map(|child| child.number);
        let mut forth: Vec<_> = tree.children(row.number).map(|child| child.number).collect();
        forth.reverse();
        assert!(back.eq(forth));
        assert_eq!(
            (tree.outward(row.number).next(), tree.outward(row.number).last()),
            (Some(row), Some(last))
        );
        assert!(!matches!(
            row.node,
            Node::Block { .. } | Node::If { .. } | Node::Map { .. } | Node::Lambda { .. }
        ));
    }
    assert!(tree.rows().map(|row| row.parent).eq(parents));
}

/// Whether the one statement of a script is an expression.
fn is_expression(tree: &Tree) -> bool {
    let root = tree.root().unwrap();
    let mut statements = tree.children(root.number);
    let one = statements.next().filter(|_| statements.next().is_none());
    one.is_some_and(|row| {
        !matches!(
            row.node,
            Node::Assign { .. }
                | Node::Variable { .. }
                | Node::Constant { .. }
                | Node::Ref { .. }
                | Node::Function { .. }
                | Node::WhileLoop { .. }
                | Node::Return(_)
                | Node::Break
                | Node::Continue
                | Node::Import { .. }
        )
    })
}

/// Texts at random, in both editions and some limits: one is a guard exactly if it has none of the four kinds and is, with a `;`
/// behind it, a script of one statement that is an expression.
#[test]
fn as_scripts_have_it() {
    const PIECES: [&str; 24] = [
        "a", "b", "f", "1", "\"s\"", "a", "true", "nil", "(", ")", "(", ")", "+", "==", "and", "or", "not",
        "-", ",", ".", ";", "=", "|", "return",
    ];
    let mut state = 20261117u64;
    let mut roll = |sides: usize| {
        state = state.wrapping_mul(6_364_136_223_846_793_005).wrapping_add(1_442_695_040_888_963_407);
        (state >> 33) as usize % sides
    };
    let (mut rooms, mut beside) = (Rooms::for_tokens(32), Rooms::for_tokens(32));
    let (mut guards, mut others, mut outside) = (0, 0, 0);
    for _ in 0..100_000 {
        // an operand and an operator in turn, mostly
        let words: Vec<&str> = (0..1 + roll(8))
            .map(|i| match (roll(6), i % 2) {
                (0, _) => PIECES[roll(PIECES.len())],
                (1, 0) => ["not", "-", "("][roll(3)],
                (_, 0) => PIECES[roll(8)],
                _ => ["+", "==", "and", "or", ".", ")"][roll(6)],
            })
            .collect();
        let text = words.join(" ");
        let with_end = format!("{text} ;");
        let (edition, limit) = (EDITIONS[roll(2)], [1, 2, 3, 64][roll(4)]);
        let ours = rooms.read_guard_with(Builtins::NONE, text.as_bytes(), edition, limit);
        let script = beside.read_with(Builtins::NONE, with_end.as_bytes(), edition, limit);
        let is_guard = !words.contains(&"|") && script.as_ref().is_ok_and(is_expression);
        assert_eq!(ours.is_ok(), is_guard, "{text}");
        match ours {
            Ok(tree) => {
                walked(&tree);
                held(text.as_bytes(), edition, limit, &tree);
                guards += 1;
            }
            Err(why) if why.code == Code::Outside => {
                assert_eq!(words.iter().position(|&word| word == "|"), Some(why.at as usize));
                outside += 1;
            }
            Err(why) => {
                // where Eof is required, what stands before is a guard
                if why.expected == Some(Kind::Eof) {
                    let before = words[..why.at as usize].join(" ");
                    assert!(rooms.read_guard_with(Builtins::NONE, before.as_bytes(), edition, limit).is_ok());
                }
                others += 1;
            }
        }
    }
    let counts = [guards, others, outside];
    assert!(counts.iter().all(|&count| count > 2_000), "{counts:?}");
}

/// Each case of the fixed list of the Rust parser's answers as a guard, in both editions: what is accepted is walked. A script of
/// the list that is one expression and has none of the four kinds is a guard without its `;`.
#[test]
fn the_rusts_scripts() {
    let (mut rest, mut rooms, mut beside) = (LIST, Rooms::for_tokens(512), Rooms::for_tokens(512));
    let (mut guards, mut refused) = (0, 0);
    while let Some(case) = frame(&mut rest) {
        let Some((text, mut tokens)) = decode(case) else { continue };
        for edition in EDITIONS {
            match beside.guard_with(Builtins::NONE, text, &tokens, edition, 64) {
                Ok(tree) => walked(&tree),
                Err(why) => {
                    refused += 1;
                    assert!(why.guard && why.code != Code::For);
                }
            }
        }
        let has = |kinds: &[Kind]| {
            tokens.chunks_exact(TOKEN_WIDTH).any(|token| kinds.iter().any(|&kind| token[0] == kind as u32))
        };
        if has(&OUTSIDE) || !rooms.parse(text, &tokens, 64).as_ref().is_ok_and(is_expression) {
            continue;
        }
        // the token before the Eof is the `;`
        let end = tokens.len() - 2 * TOKEN_WIDTH;
        assert_eq!(tokens.drain(end..end + TOKEN_WIDTH).next(), Some(Kind::Semicolon as u32));
        let ours = answer(rooms.guard_with(Builtins::NONE, text, &tokens, Edition::FIRST, 64));
        assert!(ours.starts_with("ok "), "{ours}");
        guards += 1;
    }
    assert!(guards > 20 && refused > 500, "{guards} guards, {refused} refused");
}

#[test]
fn from_row_to_row() {
    let text = "(price + 2) * rate.of(\"day\") > 9 and not late";
    let mut rooms = Rooms::for_tokens(32);
    let tree = guard(&mut rooms, text, 2, 64).unwrap();
    let covered = |number: u32| {
        let Span { start, end } = tree.cover(number).unwrap();
        &text[start as usize..end as usize]
    };
    let all: Vec<_> = tree.rows().map(|row| covered(row.number)).collect();
    assert_eq!(
        all,
        [
            "price",
            "2",
            "price + 2",
            "rate",
            "rate.of",
            "\"day\"",
            "rate.of(\"day\")",
            "(price + 2) * rate.of(\"day\")",
            "9",
            "(price + 2) * rate.of(\"day\") > 9",
            "late",
            "not late",
            text
        ]
    );
    let numbers = |of: u32| tree.children(of).map(|row| row.number).collect::<Vec<_>>();
    assert_eq!(
        (numbers(12), numbers(9), numbers(6), numbers(8)),
        (vec![9, 11], vec![7, 8], vec![4, 5], vec![])
    );
    let outward = |from: u32| tree.outward(from).map(|row| row.number).collect::<Vec<_>>();
    assert_eq!((outward(0), outward(5), outward(12)), (vec![0, 2, 7, 9, 12], vec![5, 6, 7, 9, 12], vec![12]));
    assert_eq!(
        (tree.row(13), tree.cover(13), tree.children(13).next(), tree.outward(13).next()),
        (None, None, None, None)
    );
    walked(&tree);
    // parentheses around the whole are in no row
    let tree = guard(&mut rooms, " ( (a) ) ", 1, 64).unwrap();
    assert_eq!(tree.cover(0), Some(Span { start: 4, end: 5 }));
    assert_eq!((tree.children(0).count(), tree.outward(0).count()), (0, 1));
}
