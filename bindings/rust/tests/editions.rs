//! The two editions: what the fixed list of the Rust parser's answers has in both, what the second has of its own, and what is
//! no edition.
#[allow(dead_code)]
mod rows;

use kaori_syntax::{Builtins, Code, Edition, Node, Refusal, Rooms, Span, TOKEN_WIDTH, Tree};
use rows::{answer, decode, frame};

const LIST: &[u8] = include_bytes!("../../../crates/replay/stdin");
const RIGHT_PAREN: u32 = 18;
const NOT: u32 = 24;
const RETURN: u32 = 35;

/// Edition 1 is what is read without an edition; what it accepts the second accepts, with as many rows; and without a `not` the
/// rows are the same, as refusals are where there is none of the tokens that the second reads otherwise.
#[test]
fn the_list_in_both() {
    let mut rest = LIST;
    let (mut rooms, mut beside, mut plain) =
        (Rooms::for_tokens(512), Rooms::for_tokens(512), Rooms::for_tokens(512));
    let (mut same, mut other) = (0, 0);
    while let Some(case) = frame(&mut rest) {
        let Some((text, tokens)) = decode(case) else { continue };
        let first = rooms.parse_with(Builtins::NONE, text, &tokens, Edition::FIRST, 64);
        let second = beside.parse_with(Builtins::NONE, text, &tokens, Edition::SECOND, 64);
        assert_eq!(answer(first), answer(plain.parse(text, &tokens, 64)));
        let first = plain.parse(text, &tokens, 64);
        let has = |kinds: &[u32]| tokens.chunks_exact(TOKEN_WIDTH).any(|token| kinds.contains(&token[0]));
        if let Ok(first) = &first {
            let rows = second.as_ref().map(|second| second.rows().count());
            assert_eq!(rows, Ok(first.rows().count()));
        }
        if !has(&[NOT]) && first.is_ok() || !has(&[NOT, RETURN, RIGHT_PAREN]) {
            assert_eq!(answer(second), answer(first));
            same += 1;
        } else {
            other += 1;
        }
    }
    assert!(same > 500 && other > 50, "{same} the same, {other} others");
}

fn read<'a>(rooms: &'a mut Rooms, text: &'a str, edition: u32, limit: u32) -> Result<Tree<'a>, Refusal> {
    rooms.read_with(Builtins::NONE, text.as_bytes(), Edition(edition), limit)
}

/// A row of a text in edition 2, with its span, in rooms that stay.
fn row(text: &'static str, number: u32) -> (Node<'static>, u32, u32) {
    let row = read(Box::leak(Box::new(Rooms::for_tokens(32))), text, 2, 64).unwrap().row(number).unwrap();
    (row.node, row.span.start, row.span.end)
}

fn code(text: &str, edition: u32, limit: u32) -> (u32, u32) {
    read(&mut Rooms::for_tokens(32), text, edition, limit)
        .map_or_else(|why| (why.code as u32, why.at), |_| (0, 0))
}

#[test]
fn the_second() {
    // `not` is as tight as a sign, and its span ends with its operand's: that of `(a)` is a's
    assert_eq!(row("not a and b;", 1), (Node::LogicalNot(0), 0, 5));
    assert_eq!(row("not a and b;", 3), (Node::LogicalAnd { left: 1, right: 2 }, 0, 11));
    assert_eq!(row("not (a);", 1), (Node::LogicalNot(0), 0, 6));
    assert_eq!(row("not a.b;", 2), (Node::LogicalNot(1), 0, 7));
    // a `return` alone
    assert_eq!(row("return;", 0), (Node::Return(None), 0, 6));
    assert_eq!(row("{return}", 0), (Node::Return(None), 1, 7));
    assert_eq!(row("return a;", 1), (Node::Return(Some(0)), 0, 8));
    // a chain after a parenthesised expression
    assert!(matches!(row("(f)(x);", 2), (Node::FunctionCall { callee: 0, .. }, 3, 6)));
    assert!(matches!(row("(a.b).c;", 2), (Node::PropertyAccess { object: 1, .. }, 5, 7)));
    assert_eq!((code("not a;", 2, 1), code("not a;", 2, 2)), ((11, 0), (0, 0)));
    assert_eq!((code("not a;", 1, 1), code("not a;", 1, 2)), ((11, 1), (0, 0)));
    assert_eq!((code("{return}", 2, 1), code("{return}", 1, 1)), ((0, 0), (11, 2)));
    assert_eq!((code("return", 2, 64), code("return)", 2, 64)), ((9, 1), (9, 1)));
    assert_eq!(
        (code("(f)(x);", 1, 64), code("a.(b);", 2, 64), code("1(a);", 2, 64)),
        ((8, 3), (8, 2), (8, 1))
    );
}

#[test]
fn no_edition() {
    let mut rooms = Rooms::for_tokens(8);
    rooms.nodes.fill(7);
    for number in [0, 3, 4, 256, u32::MAX] {
        let edition = Edition(number);
        let why = rooms.read_with(Builtins::NONE, b"a;", edition, 64).unwrap_err();
        assert_eq!(
            (why.code as u32, why.at, why.span, why.expected, why.found),
            (21, 0, Span::default(), None, None)
        );
        assert_eq!(
            (why.message().as_str(), why.to_string().as_str()),
            ("", "the edition is neither 1 nor 2")
        );
        let mut code = |text: &[u8], tokens: &[u32], limit| {
            rooms.parse_with(Builtins::NONE, text, tokens, edition, limit).unwrap_err().code as u32
        };
        assert_eq!(
            (code(b"a;", &[], 0), code(b"a;", &[44, 2, 2], 65), code(b"\x80", &[9, 2, 2], 64)),
            (1, 3, 21)
        );
        assert_eq!(rooms.read_with(Builtins::NONE, b"a @", edition, 0).unwrap_err().code, Code::NoToken);
        assert!(rooms.nodes.iter().all(|&number| number == 7));
        let mut small = Rooms::for_tokens(8);
        small.scratch.clear();
        assert_eq!(small.read_with(Builtins::NONE, b"a;", edition, 64).unwrap_err().code, Code::BadEdition);
    }
}
