//! What there is without `alloc`: everything over slices of the caller's. This file uses nothing else, and is also built and run
//! without features.
use kaori_syntax::{
    Builtins, Code, Edition, Kind, Lent, Node, Rule, Span, Tree, TurnedAway, expected, guard_with, keep,
    name, parse, parse_scripts, place, read, read_guard_with, read_scripts, read_with,
};

#[test]
fn a_script_in_arrays() {
    let text = b"not (a) and b;";
    let (mut list, mut nodes, mut links, mut symbols, mut scratch) =
        ([0; 24], [0; 80], [0; 24], [0; 16], [0; 24]);
    let lent = Lent { nodes: &mut nodes, links: &mut links, symbols: &mut symbols, scratch: &mut scratch };
    let tree = read_with(Builtins::NONE, text, &mut list, Edition::SECOND, 64, lent).unwrap();
    assert_eq!(tree.tokens().iter().map(|token| token.kind).next(), Some(Kind::Not));
    let top = tree.children(tree.root().unwrap().number).next().unwrap();
    assert!(matches!(top.node, Node::LogicalAnd { .. }));
    let covers = tree.children(top.number).map(|row| tree.cover(row.number).unwrap());
    assert!(covers.eq([Span { start: 0, end: 7 }, Span { start: 12, end: 13 }]));
    assert_eq!(tree.outward(0).last(), tree.root());
    assert_eq!(
        (tree.symbol(1), name(Builtins::NONE, text, &[5, 6], 1, 0)),
        (Some(&b"b"[..]), Some(&b"a"[..]))
    );

    let lent = Lent { nodes: &mut nodes, links: &mut links, symbols: &mut symbols, scratch: &mut scratch };
    let why = read(b"a = (b c);", &mut list, 64, lent).unwrap_err();
    assert_eq!((why.code, why.reason().as_str()), (Code::Required, "expected `)` and found <identifier>"));
    assert!(expected(&list, why).contains(Kind::RightParen));
    assert_eq!(place(b"a = (b c);", why.span.start as usize).map(|place| place.column), Some(8));

    let tokens = [43, 0, 1, 41, 1, 2, 44, 2, 2];
    let lent = Lent { nodes: &mut nodes, links: &mut links, symbols: &mut symbols, scratch: &mut scratch };
    assert_eq!(parse(b"a;", &tokens, 64, lent).map(|tree| tree.rows().count()), Ok(2));
}

#[test]
fn a_guard_in_arrays() {
    let (mut list, mut nodes, mut links, mut symbols, mut scratch) =
        ([0; 12], [0; 30], [0; 0], [0; 4], [0; 12]);
    let lent = Lent { nodes: &mut nodes, links: &mut links, symbols: &mut symbols, scratch: &mut scratch };
    let tree = read_guard_with(Builtins::NONE, b"a or b", &mut list, Edition::FIRST, 64, lent).unwrap();
    let last = tree.root().unwrap();
    assert_eq!((last.node, last.parent), (Node::LogicalOr { left: 0, right: 1 }, None));
    assert_eq!(tree.outward(0).last(), Some(last));

    let lent = Lent { nodes: &mut nodes, links: &mut links, symbols: &mut symbols, scratch: &mut scratch };
    let tree = guard_with(Builtins::NONE, b"a or b", &list, Edition::SECOND, 64, lent).unwrap();
    assert!(tree.children(2).map(|row| row.number).eq([0, 1]));

    let lent = Lent { nodes: &mut nodes, links: &mut links, symbols: &mut symbols, scratch: &mut scratch };
    let why = read_guard_with(Builtins::NONE, b"a or |", &mut list, Edition::FIRST, 64, lent).unwrap_err();
    assert_eq!((why.code, why.at, why.found), (Code::Outside, 2, Some(Kind::Pipe)));
    assert_eq!((nodes[29], symbols), (u32::MAX, [0, 1, 5, 6]));
}

#[test]
fn rows_of_another_build_in_arrays() {
    let text = b"f(-a);";
    let (mut list, mut nodes, mut links, mut symbols, mut scratch) =
        ([0; 21], [0; 50], [0; 6], [0; 4], [0; 21]);
    let lent = Lent { nodes: &mut nodes, links: &mut links, symbols: &mut symbols, scratch: &mut scratch };
    assert_eq!(read(text, &mut list, 64, lent).map(|tree| tree.rows().count()), Ok(5));
    // the room that it was read in is enough to check it
    let tree = Tree::from_rows(&nodes, &links, &symbols, [5, 2, 2], Edition::FIRST, &mut scratch).unwrap();
    assert!(tree.children(3).map(|row| row.number).eq([0, 2]));
    assert_eq!((tree.symbol(1), tree.with_text(text).symbol(1)), (None, Some(&b"a"[..])));

    nodes[8] = 1;
    let why = Tree::from_rows(&nodes, &links, &symbols, [5, 2, 2], Edition::FIRST, &mut scratch).unwrap_err();
    assert_eq!((why.code, why.rule, why.row), (Code::BadRows, Some(Rule::Unused), 0));
    let why =
        Tree::from_rows(&nodes, &links, &symbols, [5, 2, 2], Edition(0), &mut scratch[..9]).unwrap_err();
    assert_eq!((why.code, why.rule, why.row), (Code::BadEdition, None, 0));
    let why =
        Tree::from_rows(&nodes, &links, &symbols, [5, 2, 2], Edition(0), &mut scratch[..8]).unwrap_err();
    assert_eq!((why.code, why.rule, why.row), (Code::NOT_LENT, None, 0));
}

#[test]
fn less_of_a_script_in_arrays() {
    let text = b"f(-a); a; f;";
    let (mut list, mut nodes, mut links, mut symbols, mut scratch) =
        ([0; 33], [0; 80], [0; 12], [0; 4], [0; 33]);
    let lent = Lent { nodes: &mut nodes, links: &mut links, symbols: &mut symbols, scratch: &mut scratch };
    let held = read(text, &mut list, 64, lent).unwrap().held();
    assert_eq!((held.nodes, held.links, held.symbols, held.scratch()), (7, 4, 2, 24));
    // the room that it was read in is enough here
    let lent = Lent { nodes: &mut nodes, links: &mut links, symbols: &mut symbols, scratch: &mut scratch };
    let left = keep(held, &[false, true, true], lent).unwrap().with_text(text);
    assert!(left.children(2).map(|row| row.span.start).eq([7, 10]));
    assert_eq!((left.symbol(0), left.symbol(1), left.cover(0)), (Some(&b"a"[..]), Some(&b"f"[..]), None));
    let held = left.held();
    assert_eq!((held.nodes, held.links, symbols, scratch), (3, 2, [7, 8, 10, 11], [0; 33]));

    let lent = Lent { nodes: &mut nodes, links: &mut links, symbols: &mut symbols, scratch: &mut scratch };
    let why = keep(held, &[true; 3], lent).unwrap_err();
    assert_eq!((why.code, why.rule, why.row), (Code::BadChoice, None, 0));
    let lent =
        Lent { nodes: &mut nodes, links: &mut links, symbols: &mut symbols, scratch: &mut scratch[..11] };
    assert_eq!(keep(held, &[true; 2], lent).unwrap_err().code, Code::NOT_LENT);
}

#[test]
fn scripts_in_arrays() {
    // `a;`, `b c` and `d;`, in parts of three rows
    let (text, cuts) = (b"a;b cd;", [2, 9, 5, 18, 7, 27]);
    let (mut list, mut nodes, mut links, mut symbols, mut scratch, mut answers) =
        ([0; 27], [0; 90], [0; 27], [0; 18], [0; 27], [0; 24]);
    let lent = Lent { nodes: &mut nodes, links: &mut links, symbols: &mut symbols, scratch: &mut scratch };
    let scripts =
        read_scripts(Builtins::NONE, text, &mut list, &cuts, Edition::FIRST, 64, 3, lent, &mut answers)
            .unwrap();
    let [one, two, three] = [0, 1, 2].map(|number| scripts.get(number).unwrap());
    assert_eq!(one.map(|tree| tree.symbol(0)), Ok(Some(&b"a"[..])));
    assert_eq!(
        three.map(|tree| (tree.symbol(0), tree.cover(0))),
        Ok((Some(&b"d"[..]), Some(Span { start: 0, end: 1 })))
    );
    let why = two.unwrap_err();
    assert_eq!(
        (why.code, why.at, why.span, why.found),
        (Code::Required, 1, Span { start: 2, end: 3 }, Some(Kind::Identifier))
    );
    assert!(expected(scripts.tokens(1).unwrap(), why).contains(Kind::Semicolon));

    let lent = Lent { nodes: &mut nodes, links: &mut links, symbols: &mut symbols, scratch: &mut scratch };
    let scripts =
        parse_scripts(Builtins::NONE, text, &list, &cuts, Edition::SECOND, 64, 3, lent, &mut answers)
            .unwrap();
    assert!(scripts.iter().map(|script| script.is_ok()).eq([true, false, true]));

    let lent = Lent { nodes: &mut nodes, links: &mut links, symbols: &mut symbols, scratch: &mut scratch };
    let why = parse_scripts(Builtins::NONE, text, &list, &cuts, Edition::SECOND, 64, 4, lent, &mut answers);
    assert_eq!(why.unwrap_err(), TurnedAway::Rooms);
}
