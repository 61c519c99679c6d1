//! From row to row: children in the order of the text, the text that a row covers, lists from both ends, tokens, and rooms for
//! every script.
use kaori_syntax::{Builtins, Edition, Kind, MAX_TOKENS, Node, OwnedBuiltins, Rooms, Span};

/// What each row of a script covers, in the order of the rows, but the root's.
fn covered(text: &'static str, edition: u32) -> Vec<&'static str> {
    let mut rooms = Rooms::for_tokens(64);
    let tree = rooms.read_with(Builtins::NONE, text.as_bytes(), Edition(edition), 64).unwrap();
    let rows = tree.rows().take(tree.rows().count() - 1);
    rows.map(|row| {
        let Span { start, end } = tree.cover(row.number).unwrap();
        &text[start as usize..end as usize]
    })
    .collect()
}

/// These are parts of the scripts that `kaori tree` prints (crates/kaori/stdout), with the text that it has for each row.
#[test]
fn as_the_command_has_it() {
    assert_eq!(
        covered("lookup(keys.text());", 1),
        ["lookup", "keys", "keys.text", "keys.text()", "lookup(keys.text())"]
    );
    assert_eq!(
        covered("route(parcel.code).chute;", 1),
        ["route", "parcel", "parcel.code", "route(parcel.code)", "route(parcel.code).chute"]
    );
    assert_eq!(
        covered("parcels.map(|p| p.sender.name);", 1),
        [
            "parcels",
            "parcels.map",
            "p",
            "p.sender",
            "p.sender.name",
            "|p| p.sender.name",
            "parcels.map(|p| p.sender.name)"
        ]
    );
    // `not` in both editions
    let (first, second) = (covered("not typed and refreshed;", 1), covered("not typed and refreshed;", 2));
    assert_eq!(first, ["typed", "refreshed", "typed and refreshed", "not typed and refreshed"]);
    assert_eq!(second, ["typed", "not typed", "refreshed", "not typed and refreshed"]);
    for edition in [1, 2] {
        assert_eq!(
            covered("(not typed) and refreshed;", edition),
            ["typed", "not typed", "refreshed", "(not typed) and refreshed"]
        );
    }
    // a chain after a parenthesised expression
    assert_eq!(
        covered("(\"typed: \").append(typed).show();", 2),
        [
            "\"typed: \"",
            "(\"typed: \").append",
            "typed",
            "(\"typed: \").append(typed)",
            "(\"typed: \").append(typed).show",
            "(\"typed: \").append(typed).show()"
        ]
    );
    assert_eq!(covered("(keys.text() or \"\").length();", 2).last(), Some(&"(keys.text() or \"\").length()"));
}

/// Parentheses around a row are not its text; those of which it has one are.
#[test]
fn parentheses() {
    assert_eq!(covered("((a)) ;", 1), ["a"]);
    assert_eq!(covered("((a) + b) * (c);", 1), ["a", "b", "(a) + b", "c", "((a) + b) * (c)"]);
    assert_eq!(covered("a + ((b + (c)));", 1), ["a", "b", "c", "b + (c)", "a + ((b + (c)))"]);
    assert_eq!(covered("-(a) ;", 1), ["a", "-(a)"]);
    assert_eq!(covered("let x = (a) ;", 1), ["a", "let x = (a)"]);
    assert_eq!(covered("(x) = (y) ;", 1), ["x", "y", "(x) = (y)"]);
    assert_eq!(covered("return ((a)) ;", 1), ["a", "return ((a))"]);
    assert_eq!(covered("|x| (x) ;", 1), ["x", "|x| (x)"]);
    assert_eq!(covered("f((a), (b)(c)) ;", 2), ["f", "a", "b", "c", "(b)(c)", "f((a), (b)(c))"]);
    assert_eq!(covered("not (a) ;", 1), ["a", "not (a)"]);
    assert_eq!(covered("not (a) ;", 2), ["a", "not (a)"]);
    assert_eq!(covered("#{(a): (b)} ;", 1), ["a", "b", "#{(a): (b)}"]);
}

#[test]
fn the_script() {
    let text = b"  a;\n(b);  ";
    let mut rooms = Rooms::for_tokens(16);
    let tree = rooms.read(text, 64).unwrap();
    let root = tree.root().unwrap().number;
    assert_eq!(tree.cover(root), Some(Span { start: 0, end: 8 }));
    assert_eq!((tree.cover(root + 1), tree.cover(u32::MAX)), (None, None));
    assert_eq!((tree.text(), Span { start: 5, end: 99 }.of(text)), (&text[..], None));
    let mut rooms = Rooms::for_tokens(1);
    let tree = rooms.read(b"", 64).unwrap();
    assert_eq!((tree.cover(0), tree.children(0).count()), (Some(Span::default()), 0));
}

#[test]
fn children() {
    let mut rooms = Rooms::for_tokens(32);
    let tree = rooms.read(b"if a { f(b, -c); d } else { #{k: v, w}; }", 64).unwrap();
    let numbers = |of: u32| tree.children(of).map(|row| row.number).collect::<Vec<_>>();
    // a; f, b, c, -c, the call, d, the block; k, v, w, the map, the block; the `if`, the root
    let all: Vec<_> = (0..15).map(numbers).collect();
    let expected: [&[u32]; 15] = [
        &[],
        &[],
        &[],
        &[],
        &[3],
        &[1, 2, 4],
        &[],
        &[5, 6],
        &[],
        &[],
        &[],
        &[8, 9, 10],
        &[11],
        &[0, 7, 12],
        &[13],
    ];
    assert_eq!(all, expected);
    for of in 0..16 {
        let mut back: Vec<_> = tree.children(of).rev().map(|row| row.number).collect();
        back.reverse();
        assert_eq!(back, if of < 15 { numbers(of) } else { vec![] });
        assert!(tree.children(of).all(|row| row.parent == Some(of)));
    }
    assert_eq!(tree.children(u32::MAX).next(), None);
    // from both ends
    let mut both = tree.children(5);
    assert_eq!(both.next().map(|row| row.number), Some(1));
    assert_eq!(both.next_back().map(|row| row.number), Some(4));
    assert_eq!(both.next_back().map(|row| row.number), Some(2));
    assert_eq!((both.next(), both.next_back()), (None, None));
}

#[test]
fn lists_from_both_ends() {
    let mut rooms = Rooms::for_tokens(64);
    let tree = rooms.read(b"import a.b: c; fun f(x, y, z) { g(x, y, z); #{x: y, z}; }", 64).unwrap();
    let mut seen = 0;
    for row in tree.rows() {
        match row.node {
            Node::FunctionCall { arguments, .. } => {
                assert_eq!((arguments.len(), arguments.iter().len()), (3, 3));
                let mut back: Vec<u32> = arguments.iter().rev().collect();
                back.reverse();
                let forth: Vec<u32> = arguments.into_iter().collect();
                assert_eq!(back, forth);
                assert_eq!((arguments.get(1), arguments.get(3)), (Some(forth[1]), None));
                for (place, argument) in (&arguments).into_iter().enumerate() {
                    assert_eq!(argument, forth[place]);
                }
                let mut ends = arguments.iter();
                assert_eq!(
                    (ends.next_back(), ends.len(), ends.nth(1), ends.next()),
                    (Some(forth[2]), 2, Some(forth[1]), None)
                );
                seen += 1;
            }
            Node::Function { parameters, .. } => {
                let words: Vec<_> =
                    parameters.into_iter().rev().map(|name| tree.symbol(name.symbol).unwrap()).collect();
                assert_eq!(words, [b"z", b"y", b"x"]);
                seen += 1;
            }
            Node::Map { entries } => {
                assert!(entries.iter().next_back().is_some_and(|(_, value)| value.is_none()));
                seen += 1;
            }
            Node::Import { path, bindings } => {
                assert_eq!((path.len(), bindings.iter().len(), bindings.is_empty()), (2, 1, false));
                seen += 1;
            }
            _ => {}
        }
    }
    assert_eq!(seen, 4);
    let mut back: Vec<_> = tree.rows().rev().map(|row| row.number).collect();
    back.reverse();
    assert!(tree.rows().map(|row| row.number).eq(back));
    let mut rows = tree.rows();
    assert_eq!((rows.next_back(), rows.next()), (tree.root(), tree.row(0)));
}

#[test]
fn tokens() {
    let mut rooms = Rooms::for_tokens(64);
    let list = {
        let tree = rooms.read(b"a (\"s\");", 64).unwrap();
        let tokens = tree.tokens();
        let kinds: Vec<_> = tokens.into_iter().map(|token| token.kind).collect();
        use Kind::*;
        assert_eq!(kinds, [Identifier, LeftParen, StringLiteral, RightParen, Semicolon, Eof]);
        assert_eq!(tokens.get(2).and_then(|token| token.span.of(tree.text())), Some(&b"\"s\""[..]));
        tokens
            .iter()
            .flat_map(|token| [token.kind as u32, token.span.start, token.span.end])
            .collect::<Vec<_>>()
    };
    // handed over again they are the tree's
    let tree = rooms.parse(b"a (\"s\");", &list, 64).unwrap();
    assert!(
        tree.tokens()
            .iter()
            .flat_map(|token| [token.kind as u32, token.span.start, token.span.end])
            .eq(list.iter().copied())
    );
}

/// The largest script beside the most names is read in rooms for every script, and in none of 4,095 tokens.
#[test]
fn rooms_for_every_script() {
    let names: Vec<String> = (0..64).map(|i| format!("name{i}")).collect();
    let station = OwnedBuiltins::new(&names.iter().map(String::as_str).collect::<Vec<_>>());
    let text = format!("{}a;", "a+".repeat((MAX_TOKENS - 3) / 2));
    for tokens in [MAX_TOKENS, MAX_TOKENS - 1] {
        let mut rooms =
            if tokens == MAX_TOKENS { Rooms::max() } else { Rooms::for_tokens_with(station.lend(), tokens) };
        let read = rooms.read_with(station.lend(), text.as_bytes(), Edition::FIRST, 64);
        let count = read.as_ref().map_or(0, |tree| tree.tokens().len());
        assert_eq!(count, 4_095, "{tokens}");
        let tree = read.unwrap();
        let sum = tree.root().map(|root| root.number - 1).unwrap();
        assert_eq!(tree.cover(sum), Some(Span { start: 0, end: text.len() as u32 - 1 }));
    }
    // a word a token, and each of them another
    let words: String = (0..2_047).map(|i| format!("w{i};")).collect();
    let mut rooms = Rooms::max();
    let tree = rooms.read_with(station.lend(), words.as_bytes(), Edition::FIRST, 64).unwrap();
    assert_eq!((tree.tokens().len(), tree.symbol_rows().len()), (4_095, 2_047 + 64));
}
