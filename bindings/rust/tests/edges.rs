//! Rooms of all sizes, rows that are not there, and whatever else can be handed over: every call answers and nothing panics.
#[allow(dead_code)]
mod rows;

use kaori_syntax::{
    Builtins, Code, Edition, Kind, LINK_WIDTH, Lent, NODE_WIDTH, Node, Rooms, SCRATCH_WIDTH, SYMBOL_WIDTH,
    Span, TOKEN_WIDTH, Tree, parse, place, read,
};
use rows::{decode, frame};

const LIST: &[u8] = include_bytes!("../../../crates/replay/stdin");

#[test]
fn rooms_of_any_size() {
    let text = b"fun f(a, b) { a + b }"; // 13 tokens
    for rows in 0..16 {
        match Rooms::for_tokens(rows).read(text, 64) {
            Ok(tree) => assert!(rows >= 13 && tree.root().is_some()),
            Err(refusal) => assert!(rows < 13 && refusal.code == Code::BadCount),
        }
    }
    let mut rooms = Rooms::for_tokens(16);
    rooms.scratch.truncate(SCRATCH_WIDTH * 13);
    assert!(rooms.read(text, 64).is_ok());
    rooms.scratch.truncate(SCRATCH_WIDTH * 13 - 1);
    assert_eq!(
        rooms.read(text, 64).map_err(|r| (r.code, r.at, r.found)).err(),
        Some((Code::SmallRoom, 0, None))
    );
    assert!(Rooms::for_tokens(1).read(b"", 64).is_ok());
    assert_eq!(Rooms::default().read(b"", 64).unwrap_err().code, Code::BadCount);
    assert_eq!(Rooms::for_tokens(usize::MAX).nodes.len(), 10 * 4096);
}

#[test]
fn rows_that_are_not_there() {
    let mut rooms = Rooms::for_tokens(8);
    let tree = rooms.read(b"a;", 64).unwrap();
    assert!(tree.row(2).is_none() && tree.row(u32::MAX).is_none());
    assert!(tree.symbol(1).is_none() && tree.symbol(u32::MAX).is_none());
    assert_eq!(tree.rows().size_hint(), (0, Some(2)));
    for number in [2, 3, u32::MAX] {
        assert!(tree.outward(number).next().is_none() && tree.outward(number).size_hint() == (0, Some(0)));
    }
}

#[test]
fn outward() {
    let mut rooms = Rooms::for_tokens(16);
    let tree = rooms.read(b"#{k: f(-x), v};", 64).unwrap(); // k, f, x, -x, the call, v, the map, the root
    let parents: Vec<_> = tree.rows().map(|row| row.parent).collect();
    assert_eq!(parents, [Some(6), Some(4), Some(3), Some(4), Some(6), Some(6), Some(7), None]);
    let numbers = |from: u32| tree.outward(from).map(|row| row.number).collect::<Vec<_>>();
    assert_eq!((numbers(2), numbers(5), numbers(7)), (vec![2, 3, 4, 6, 7], vec![5, 6, 7], vec![7]));
    let mut rows = tree.outward(2);
    assert_eq!(rows.size_hint(), (0, Some(6)));
    assert_eq!(rows.next(), tree.row(2));
    assert_eq!(rows.size_hint(), (0, Some(5)));
    assert_eq!(rows.by_ref().last(), tree.root());
    assert_eq!((rows.size_hint(), rows.next()), ((0, Some(0)), None));
}

#[test]
fn places() {
    assert!(
        place(b"a;", 3).is_none() && place(b"a;", usize::MAX).is_none() && place(&[0; 65_537], 0).is_none()
    );
    assert_eq!(place(b"a;", 2).map(|p| (p.line, p.column)), Some((1, 3)));
    assert_eq!(place(&[10; 65_536], 65_536).map(|p| (p.line, p.column)), Some((65_537, 1)));
}

#[test]
fn refusals() {
    let mut rooms = Rooms::for_tokens(64);
    let mut refused = |text: &[u8], limit| {
        let r = rooms.read(text, limit).unwrap_err();
        (r.code as u32, r.at, r.span.start, r.span.end, r.expected, r.found, r.to_string())
    };
    assert_eq!(
        refused(b"a;", 65),
        (3, 0, 0, 0, None, None, "the depth limit is not from 1 to 64".to_string())
    );
    assert_eq!(refused(b"a \x80", 64), (5, 0, 2, 3, None, None, "a byte that is not ASCII".to_string()));
    assert_eq!(refused(b"a @", 64), (16, 0, 2, 3, None, None, "no token starts here".to_string()));
    assert_eq!(
        refused(b"(f)(x);", 64),
        (8, 3, 3, 4, Some(Kind::Semicolon), Some(Kind::LeftParen), "expected `;` and found `(`".to_string())
    );
    assert_eq!(refused(b"for", 64), (10, 0, 0, 3, None, Some(Kind::For), "for is not supported".to_string()));
    assert_eq!(
        refused(b"((a));", 2),
        (11, 2, 2, 3, None, Some(Kind::Identifier), "nested too deep".to_string())
    );
    let refusal = rooms.parse(b"a;", &[43, 0, 1, 45, 1, 2, 44, 2, 2], 64).unwrap_err();
    // a number that is no kind, and one that is
    assert_eq!((refusal.code, refusal.at, refusal.found), (Code::BadToken, 1, None));
    assert_eq!(refusal.message().as_str(), "");
    let refusal = rooms.parse(b"a;", &[43, 0, 1, 40, 1, 2, 44, 2, 2], 64).unwrap_err();
    assert_eq!((refusal.code, refusal.at, refusal.found), (Code::BadToken, 1, Some(Kind::NumberLiteral)));
}

/// Numbers without a pattern.
struct Dice(u64);

impl Dice {
    fn roll(&mut self, sides: usize) -> usize {
        self.0 = self.0.wrapping_mul(6_364_136_223_846_793_005).wrapping_add(1_442_695_040_888_963_407);
        (self.0 >> 33) as usize % sides
    }

    /// A number near a bound, or any.
    fn number(&mut self, bound: usize) -> u32 {
        match self.roll(8) {
            0 => u32::MAX - self.roll(3) as u32,
            1 => (bound + self.roll(4)) as u32,
            _ => self.roll(bound + 1) as u32,
        }
    }

    fn numbers(&mut self, count: usize, bound: usize) -> Vec<u32> {
        (0..count).map(|_| self.number(bound)).collect()
    }
}

/// The rows that a node names, in their order, and the symbols of its names and strings.
fn named(node: &Node) -> (Vec<u32>, Vec<u32>) {
    let rows = match *node {
        Node::Binary { left, right, .. }
        | Node::LogicalAnd { left, right }
        | Node::LogicalOr { left, right }
        | Node::Assign { left, right } => vec![left, right],
        Node::LogicalNot(child) | Node::Unary { operand: child, .. } => vec![child],
        Node::Return(child) => child.into_iter().collect(),
        Node::Variable { right, .. } | Node::Constant { right, .. } | Node::Ref { right, .. } => vec![right],
        Node::FunctionCall { callee, arguments } => [callee].into_iter().chain(arguments.iter()).collect(),
        Node::PropertyAccess { object, .. } => vec![object],
        Node::Map { entries } => {
            entries.iter().flat_map(|(key, value)| [key].into_iter().chain(value)).collect()
        }
        Node::Function { block, .. } | Node::Lambda { block, .. } => vec![block],
        Node::Block { statements, tail } => statements.iter().chain(tail).collect(),
        Node::If { condition, then_branch, else_branch } => {
            [condition, then_branch].into_iter().chain(else_branch).collect()
        }
        Node::WhileLoop { condition, block } => vec![condition, block],
        _ => vec![],
    };
    let symbols = match *node {
        Node::Variable { left: name, .. }
        | Node::Constant { left: name, .. }
        | Node::Ref { left: name, .. }
        | Node::Identifier(name)
        | Node::PropertyAccess { property: name, .. } => vec![name.symbol],
        Node::Function { name, parameters, .. } => {
            parameters.iter().chain([name]).map(|name| name.symbol).collect()
        }
        Node::Lambda { parameters, .. } => parameters.iter().map(|name| name.symbol).collect(),
        Node::Import { path, bindings } => {
            path.iter().chain(bindings.iter()).map(|name| name.symbol).collect()
        }
        Node::String(symbol) => vec![symbol],
        _ => vec![],
    };
    (rows, symbols)
}

/// What each row covers, row by row from the parts that its children cover, as crates/showing/src/cover.rt has it: the parentheses
/// of a part are counted, and the counterparts of those that are alone looked for one by one.
fn covers(tree: &Tree) -> Vec<Span> {
    let tokens: Vec<_> = tree.tokens().iter().collect();
    let mut all: Vec<Span> = Vec::new();
    for row in tree.rows() {
        let mut part = row.span;
        for child in named(&row.node).0 {
            let Span { start, end } = all[child as usize];
            part = Span { start: part.start.min(start), end: part.end.max(end) };
        }
        let (mut open, mut shut) = (0, 0);
        for token in
            tokens.iter().filter(|token| part.start <= token.span.start && token.span.end <= part.end)
        {
            match token.kind {
                Kind::LeftParen => open += 1,
                Kind::RightParen if open == 0 => shut += 1,
                Kind::RightParen => open -= 1,
                _ => {}
            }
        }
        for token in &tokens {
            if open > 0 && token.kind == Kind::RightParen && part.end <= token.span.start {
                part.end = token.span.end;
                open -= 1;
            }
        }
        for token in tokens.iter().rev() {
            if shut > 0 && token.kind == Kind::LeftParen && token.span.end <= part.start {
                part.start = token.span.start;
                shut -= 1;
            }
        }
        assert_eq!((open, shut), (0, 0));
        all.push(part);
    }
    all
}

/// Follows every number of every row, inward and outward.
fn walk(tree: &Tree) {
    let mut rows = 0;
    let mut parents = vec![None; tree.node_rows().len()];
    for row in tree.rows() {
        assert_eq!(row.number, rows);
        rows += 1;
        let (children, symbols) = named(&row.node);
        assert!(tree.children(row.number).map(|child| child.number).eq(children.iter().copied()));
        assert!(tree.children(row.number).rev().map(|child| child.number).eq(children.iter().copied().rev()));
        assert!(symbols.iter().all(|&symbol| tree.symbol(symbol).is_some()));
        for child in children {
            assert!(child < row.number && tree.row(child).is_some());
            assert_eq!(parents[child as usize].replace(row.number), None);
        }
    }
    assert!(rows as usize == tree.node_rows().len() && rows > 0);
    assert!(tree.rows().map(|row| row.parent).eq(parents.iter().copied()));
    assert_eq!(parents.iter().position(|parent| parent.is_none()), Some(parents.len() - 1));
    let covered = tree.rows().map(|row| tree.cover(row.number).unwrap());
    assert!(covered.eq(covers(tree)), "{:?}", String::from_utf8_lossy(tree.text()));
    for row in tree.rows() {
        assert_eq!(tree.outward(row.number).next(), Some(row));
        assert_eq!(tree.outward(row.number).last(), tree.root());
    }
}

/// Each script of the fixed list of the Rust's answers that is accepted, in both editions.
#[test]
fn each_script_of_the_list() {
    let (mut rest, mut rooms, mut scripts) = (LIST, Rooms::for_tokens(512), 0);
    while let Some(case) = frame(&mut rest) {
        let Some((text, tokens)) = decode(case) else { continue };
        for edition in [Edition::FIRST, Edition::SECOND] {
            if let Ok(tree) = rooms.parse_with(Builtins::NONE, text, &tokens, edition, 64) {
                walk(&tree);
                scripts += 1;
            }
        }
    }
    assert!(scripts > 500, "{scripts} scripts");
}

#[test]
fn anything_at_all() {
    const PIECES: [&str; 25] = [
        "a", "b", "1", "\"s\"", ";", "(", ")", "{", "}", "if", "not", "+", "=", ",", ".", "|", "#", ":", " ",
        "fun", "\n", "-", "@", "é", "return",
    ];
    let mut dice = Dice(20261115);
    let (mut accepted, mut turned, mut refused, mut full, mut guards) = (0, 0, 0, 0, 0);
    for _ in 0..40_000 {
        let text: String = (0..dice.roll(12)).map(|_| PIECES[dice.roll(PIECES.len())]).collect();
        let text = text.as_bytes();
        let limit = dice.number(64);
        // 1 or 2, and now and then any number
        let edition = match dice.roll(16) {
            0 => Edition(dice.number(3)),
            other => Edition(1 + other as u32 % 2),
        };
        let mut rooms = Rooms {
            nodes: dice.numbers(NODE_WIDTH * 16, 70),
            links: dice.numbers(LINK_WIDTH * 16, 70),
            symbols: dice.numbers(SYMBOL_WIDTH * 16, 70),
            scratch: dice.numbers(SCRATCH_WIDTH * 16, 70),
            list: dice.numbers(TOKEN_WIDTH * 16, 70),
        };
        // rooms of less than three rows, now and then
        let Rooms { nodes, links, symbols, .. } = &mut rooms;
        for (room, width) in [(nodes, NODE_WIDTH), (links, LINK_WIDTH), (symbols, SYMBOL_WIDTH)] {
            if dice.roll(4) == 0 {
                room.truncate(dice.roll(3 * width));
            }
        }
        for room in [&mut rooms.scratch, &mut rooms.list] {
            if dice.roll(8) == 0 {
                room.truncate(dice.roll(48));
            }
        }
        let four =
            |rooms: &Rooms| [&rooms.nodes, &rooms.links, &rooms.symbols, &rooms.scratch].map(Vec::clone);
        let before = four(&rooms);
        let from_text = rooms.read_with(Builtins::NONE, text, edition, limit).map(|tree| walk(&tree));
        match &from_text {
            Ok(()) => accepted += 1,
            Err(r) if r.found.is_none() => {
                assert!([1, 3, 4, 5, 16, 21].contains(&(r.code as u32)) && four(&rooms) == before);
                turned += 1;
            }
            Err(r) => {
                assert!(r.code == Code::SmallRoom || (Code::Required..=Code::TooDeep).contains(&r.code));
                assert!(four(&rooms).concat().iter().all(|&number| number == 0));
                if r.code == Code::SmallRoom {
                    full += 1;
                } else {
                    refused += 1;
                }
            }
        }
        // the tokens that were made have the same answer
        let mut list = rooms.list.clone();
        if let Some(eof) = list.chunks_exact(3).position(|token| token[0] == 44)
            && !from_text.is_err_and(|r| [1, 2, 5, 16].contains(&(r.code as u32)))
        {
            list.truncate(3 * (eof + 1));
            let from_list = rooms.parse_with(Builtins::NONE, text, &list, edition, limit);
            assert_eq!(from_list.map(|tree| walk(&tree)), from_text);
        }
        // the same text and list as a guard
        let from_text = rooms.read_guard_with(Builtins::NONE, text, edition, limit).map(|tree| walk(&tree));
        guards += usize::from(from_text.is_ok());
        if !from_text.is_err_and(|r| [1, 2, 5, 16].contains(&(r.code as u32))) {
            let from_list = rooms.guard_with(Builtins::NONE, text, &list, edition, limit);
            assert_eq!(from_list.map(|tree| walk(&tree)), from_text);
        }
        // and numbers that are no tokens have one
        let wild = dice.numbers(dice.0 as usize % 40, 45);
        if let Ok(tree) = rooms.parse_with(Builtins::NONE, text, &wild, edition, limit) {
            walk(&tree);
        }
        if let Ok(tree) = rooms.guard_with(Builtins::NONE, text, &wild, edition, limit) {
            walk(&tree);
        }
        let _ = place(text, dice.number(12) as usize);
    }
    let counts = [accepted, turned, refused, full, guards];
    assert!(counts.iter().all(|&count| count > 500), "{counts:?}");
}

#[test]
fn slices_of_the_callers() {
    let (mut list, mut nodes, mut links, mut symbols, mut scratch) =
        ([9; 10], [9; 31], [9; 10], [9; 7], [9; 11]);
    let lent = Lent { nodes: &mut nodes, links: &mut links, symbols: &mut symbols, scratch: &mut scratch };
    assert_eq!(read(b"a;", &mut list, 64, lent).map(|tree| tree.rows().count()), Ok(2));
    assert_eq!((list[9], nodes[19], links[9], symbols[6], scratch), (0, u32::MAX, 0, 0, [0; 11]));
    assert_eq!(nodes[20..], [0; 11]);
    let lent = Lent { nodes: &mut [], links: &mut [], symbols: &mut [], scratch: &mut [] };
    assert_eq!(
        parse(b"a;", &list[..9], 64, lent).map_err(|r| (r.code, r.found)).err(),
        Some((Code::SmallRoom, None))
    );
    let lent = Lent { nodes: &mut [], links: &mut [], symbols: &mut [], scratch: &mut [] };
    assert_eq!(parse(b"", &[], 64, lent).unwrap_err().code, Code::BadCount);
}
