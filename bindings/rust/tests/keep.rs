//! Statements that are dropped: what is left are the rows of the tokens without them, and the rest is zeros.
#[allow(dead_code)]
mod rows;

use kaori_syntax::{
    Builtins, Code, Edition, Held, Kind, LINK_WIDTH, Lent, NODE_WIDTH, Node, OwnedBuiltins, Rooms, Rule,
    SYMBOL_WIDTH, Span, Station, TOKEN_WIDTH, Tree, keep,
};
use rows::{decode, frame};

const LIST: &[u8] = include_bytes!("../../../crates/replay/stdin");
const EDITIONS: [Edition; 2] = [Edition::FIRST, Edition::SECOND];

/// The numbers that are in use of each room.
fn lengths(held: Held) -> [usize; 3] {
    [NODE_WIDTH * held.nodes as usize, LINK_WIDTH * held.links as usize, SYMBOL_WIDTH * held.symbols as usize]
}

fn three(rooms: &Rooms) -> [&Vec<u32>; 3] {
    [&rooms.nodes, &rooms.links, &rooms.symbols]
}

/// All rows of a tree, room by room.
fn numbers<'a>(tree: &Tree<'a>) -> [&'a [u32]; 3] {
    [tree.node_rows().as_flattened(), tree.link_rows().as_flattened(), tree.symbol_rows().as_flattened()]
}

/// Where each statement ends in the list of tokens: behind its `;`, if one comes before the next statement, and else behind what
/// it covers.
fn ends(tree: &Tree) -> Vec<usize> {
    let Some(Node::Block { statements, .. }) = tree.root().map(|row| row.node) else { panic!("no block") };
    let tokens: Vec<_> = tree.tokens().iter().collect();
    let covers: Vec<Span> = statements.iter().map(|row| tree.cover(row).unwrap()).collect();
    let end = |(number, cover): (usize, &Span)| {
        let behind = tokens.partition_point(|token| token.span.start < cover.end);
        let next = covers.get(number + 1).map_or(u32::MAX, |next| next.start);
        let between = tokens[behind..].iter().take_while(|token| token.span.start < next);
        let semicolon = between.map(|token| token.kind).position(|kind| kind == Kind::Semicolon);
        behind + semicolon.map_or(0, |place| place + 1)
    };
    covers.iter().enumerate().map(end).collect()
}

/// Every choice of up to four statements; else a few: none, all, the first, the last, every second, and some without a pattern.
fn choices(statements: usize) -> Vec<Vec<bool>> {
    let of = |choose: &dyn Fn(usize) -> bool| (0..statements).map(choose).collect();
    if statements <= 4 {
        return (0..1 << statements).map(|bits| of(&|i| bits >> i & 1 == 1)).collect();
    }
    vec![
        of(&|_| false),
        of(&|_| true),
        of(&|i| i == 0),
        of(&|i| i + 1 == statements),
        of(&|i| i % 2 == 1),
        of(&|i| i * 7919 % 13 < 6),
    ]
}

/// Drops statements of a script in every way of `choices`, and holds what is left to a reading of the shorter list. It answers how
/// often; none, if the script is refused.
fn held_to(builtins: Builtins, text: &[u8], tokens: &[u32], edition: Edition) -> Option<usize> {
    let mut whole = Rooms::for_tokens_with(builtins, 512);
    let tree = whole.parse_with(builtins, text, tokens, edition, 64).ok()?;
    let (held, ends) = (tree.held(), ends(&tree));
    assert_eq!((held.builtins, held.edition), (builtins.count(), edition));
    // past the rows in use the numbers stay
    let used = lengths(held);
    let Rooms { nodes, links, symbols, .. } = &mut whole;
    for (room, used) in [nodes, links, symbols].into_iter().zip(used) {
        room[used..].fill(7);
    }
    // the same tree once more, to be copied into rooms that are empty at first and then have rows of the choice before
    let (mut first, mut others) = (Rooms::for_tokens_with(builtins, 512), Rooms::default());
    let tree = first.parse_with(builtins, text, tokens, edition, 64).unwrap();
    let choices = choices(ends.len());
    for choice in &choices {
        let mut shorter = Vec::new();
        let mut from = 0;
        for (&kept, &end) in choice.iter().zip(&ends) {
            if kept {
                shorter.extend(&tokens[TOKEN_WIDTH * from..TOKEN_WIDTH * end]);
            }
            from = end;
        }
        shorter.extend(&tokens[TOKEN_WIDTH * from..]);
        let mut other = Rooms::for_tokens_with(builtins, 512);
        let plain = other.parse_with(builtins, text, &shorter, edition, 64).expect("a script");

        let mut rooms = whole.clone();
        let left = rooms.keep(held, choice).unwrap();
        assert_eq!(left.node_rows(), plain.node_rows(), "{choice:?} of {:?}", String::from_utf8_lossy(text));
        assert_eq!(left.link_rows(), plain.link_rows());
        assert_eq!(left.symbol_rows(), plain.symbol_rows());
        assert_eq!(left.held(), plain.held());
        let symbols = 0..left.symbol_rows().len() as u32 + 1;
        let [bare, named] = [left, left.with_text(text).with_builtins(builtins)];
        assert!(symbols.clone().all(|symbol| named.symbol(symbol) == plain.symbol(symbol)));
        assert!(symbols.clone().all(|symbol| bare.symbol(symbol).is_none()));
        // without the built-in names theirs are none, and not what stands there in the text
        let own = left.with_text(text);
        assert!(
            symbols
                .clone()
                .all(|symbol| own.symbol(symbol) == plain.symbol(symbol).filter(|_| symbol >= held.builtins))
        );
        assert_eq!((left.tokens().len(), left.cover(0), left.text()), (0, None, &b""[..]));

        let copied = tree.keep(choice, &mut others).unwrap();
        assert_eq!(numbers(&copied), numbers(&plain), "{choice:?} of {:?}", String::from_utf8_lossy(text));
        assert_eq!(copied.held(), plain.held());
        assert!(symbols.clone().all(|symbol| copied.symbol(symbol) == plain.symbol(symbol)));
        assert_eq!((copied.tokens().len(), copied.cover(0), copied.text()), (0, None, text));
        let rows = numbers(&copied).map(<[u32]>::to_vec);
        for ((room, mut rows), used) in three(&others).into_iter().zip(rows).zip(used) {
            rows.resize(used, 0);
            assert_eq!(*room, rows);
        }
        assert_eq!(others.scratch, vec![0; held.scratch()]);
        // and the whole tree is as it was
        let before = three(&whole).into_iter().zip(used).map(|(room, used)| &room[..used]);
        assert!(before.eq(numbers(&tree)));

        let again = left.held();
        for ((room, packed), used) in three(&rooms).into_iter().zip(lengths(again)).zip(used) {
            assert!(room[packed..used].iter().all(|&number| number == 0));
            assert!(room[used..].iter().all(|&number| number == 7));
        }
        assert!(rooms.scratch.iter().all(|&number| number == 0));
        // all of what is left is kept as it is
        let before = rooms.clone();
        let statements = choice.iter().filter(|&&kept| kept).count();
        assert_eq!(rooms.keep(again, &vec![true; statements]).unwrap().held(), again);
        assert_eq!(three(&rooms), three(&before));
    }
    Some(choices.len())
}

/// The scripts of the fixed list, in both editions, alone and beside names that they have.
#[test]
fn the_rusts_scripts() {
    let (mut rest, mut scripts, mut turns) = (LIST, 0, 0);
    while let Some(case) = frame(&mut rest) {
        frame(&mut rest).expect("an answer");
        let Some((text, tokens)) = decode(case) else { continue };
        let words: Vec<&str> = tokens
            .chunks_exact(TOKEN_WIDTH)
            .filter(|token| token[0] == Kind::Identifier as u32)
            .filter_map(|token| std::str::from_utf8(text.get(token[1] as usize..token[2] as usize)?).ok())
            .take(2)
            .collect();
        let names = match words[..] {
            [one, other] if one != other => OwnedBuiltins::new(&["station_1", one, other]),
            _ => OwnedBuiltins::new(&["station_1"]),
        };
        for edition in EDITIONS {
            for builtins in [Builtins::NONE, names.lend()] {
                let made = held_to(builtins, text, &tokens, edition);
                scripts += usize::from(made.is_some());
                turns += made.unwrap_or(0);
            }
        }
    }
    assert!(scripts > 1000 && turns > 2000, "{scripts} scripts, {turns} choices");
}

/// Statements of every kind, three at a time, in every order: each shares names with the others.
#[test]
fn all_kinds() {
    const STATEMENTS: [&str; 18] = [
        "a;",
        "\"b\";",
        "show(a, \"\");",
        "let c = -b;",
        "const a = 1 + c;",
        "ref b = nil;",
        "c.a = not true;",
        "(a);",
        "#{a: b, c};",
        "|a, c| { b; };",
        "if a { b; } else { c }",
        "while b { break; continue; }",
        "fun c(a, b) { return a; }",
        "import b.a: c, show;",
        "{ a; { b } }",
        "{}",
        "if (c) {} else if b { \"a\" }",
        "return a and b or ^c;",
    ];
    let names = OwnedBuiltins::new(&["print", "show", "b"]);
    let mut rooms = Rooms::for_tokens(64);
    let mut turns = 0;
    for turn in 0..STATEMENTS.len().pow(3) {
        let [one, two, three] = [turn, turn / 18, turn / 324].map(|i| STATEMENTS[i % 18]);
        let text = format!("{one} {two}{three}");
        let read = rooms.read(text.as_bytes(), 64).expect("a script");
        let tokens: Vec<u32> = read
            .tokens()
            .iter()
            .flat_map(|token| [token.kind as u32, token.span.start, token.span.end])
            .collect();
        let edition = EDITIONS[turn % 2];
        let builtins = [Builtins::NONE, names.lend()][turn / 2 % 2];
        turns += held_to(builtins, text.as_bytes(), &tokens, edition).expect("a script");
    }
    assert_eq!(turns, 8 * 5832);
}

/// What is refused, in which order, and what it leaves.
#[test]
fn refused() {
    let mut rooms = Rooms::for_tokens(16);
    let held = rooms.read(b"a; f(b); a;", 64).unwrap().held();
    assert_eq!((held.nodes, held.links, held.symbols, held.scratch()), (6, 4, 3, 23));
    let refusal = |held: Held, choice: &[bool], scratch: usize, room: &Rooms| {
        let mut rooms = room.clone();
        rooms.scratch = vec![7; scratch];
        let Rooms { nodes, links, symbols, scratch, .. } = &mut rooms;
        let why = keep(held, choice, Lent { nodes, links, symbols, scratch }).unwrap_err();
        assert_eq!(three(&rooms), three(room));
        let left = if [Code::BadChoice, Code::BadRows].contains(&why.code) { 0 } else { 7 };
        assert!(rooms.scratch.iter().all(|&number| number == left));
        (why.code as u32, why.rule, why.row, why.to_string())
    };
    let (all, short) = ([true; 3], [true; 2]);
    let told = |code, text: &str| (code, None, 0, text.to_string());
    let lacks = told(15, "there are not so many rows, or scratch is too small");
    let miscounted = told(20, "the choice's length is not the statement count");
    assert_eq!(refusal(held, &short, 23, &rooms), miscounted);
    assert_eq!(refusal(held, &[], 23, &rooms), miscounted);
    assert_eq!(refusal(held, &[false; 4], 23, &rooms), miscounted);
    assert_eq!(refusal(held, &all, 22, &rooms), lacks);
    for wrong in [
        Held { nodes: 17, ..held },
        Held { links: u32::MAX, ..held },
        Held { symbols: 17, ..held },
        Held { builtins: 4, ..held },
        Held { builtins: u32::MAX, edition: Edition(0), ..held },
    ] {
        assert_eq!(refusal(wrong, &all, 64, &rooms), lacks);
        // and nothing is made for rows that are not there
        let mut rooms = rooms.clone();
        let most = rooms.scratch.len().max(2 * 16 + 2 * 16 + 16);
        assert_eq!(rooms.keep(wrong, &all).unwrap_err().code, Code::NOT_LENT);
        assert!(rooms.scratch.len() <= most);
    }
    for edition in [0, 3, 257, u32::MAX] {
        let wrong = Held { edition: Edition(edition), ..held };
        assert_eq!(refusal(wrong, &short, 23, &rooms), told(21, "the edition is neither 1 nor 2"));
    }
    let mut broken = rooms.clone();
    broken.nodes[9] = 0;
    let (code, rule, row, text) = refusal(held, &short, 23, &broken);
    assert_eq!((code, rule, row), (22, Some(Rule::Parents), 0));
    assert_eq!(text, "row 0 breaks rule 9: the parent is the row that names this one");
    // a guard has no statements
    let guard = rooms.guard(b"f(a)", 64).unwrap().held();
    let (code, rule, row, _) = refusal(guard, &[], 23, &rooms);
    assert_eq!((code, rule, row), (22, Some(Rule::Root), 2));
    // nor has a script of nothing, but it has a root
    let empty = rooms.read(b"", 64).unwrap().held();
    assert_eq!(rooms.keep(empty, &[]).unwrap().held(), empty);
}

/// Scratch that is too small is made larger, and nothing else.
#[test]
fn scratch_grows() {
    let mut rooms = Rooms::for_tokens(16);
    let held = rooms.read(b"a; b; c;", 64).unwrap().held();
    rooms.scratch = vec![7; 2];
    assert_eq!(rooms.keep(held, &[true, false, true]).unwrap().held().symbols, 2);
    assert_eq!(rooms.scratch, vec![0; 2 * (4 + 3) + 3]);
    assert_eq!(rooms.nodes.len(), 16 * NODE_WIDTH);
}

/// A copy in other rooms: these grow and never shrink, and what follows the rows is zeros. The text and the names are those that the
/// tree has, and none that it has not.
#[test]
fn in_other_rooms() {
    let names = OwnedBuiltins::new(&["show", "advance"]);
    let text = b"show(early); show(late); advance();";
    let mut rooms = Rooms::for_tokens_with(names.lend(), 32);
    let tree = rooms.read_with(names.lend(), text, Edition::SECOND, 64).unwrap();
    let before = numbers(&tree).map(<[u32]>::to_vec);
    let held = tree.held();
    let spelled = |tree: &Tree| [0, 1, 2, 3].map(|symbol| tree.symbol(symbol).map(<[u8]>::to_vec));
    let [show, advance, early, late] = ["show", "advance", "early", "late"].map(|name| Some(name.into()));
    let latest = [show.clone(), advance.clone(), late.clone(), None];

    // a smaller room of each sort, and the others larger
    for small in 0..5 {
        let mut others = Rooms::for_tokens_with(names.lend(), 64);
        let Rooms { nodes, links, symbols, scratch, .. } = &mut others;
        let mut sizes = [0; 4];
        let asked = lengths(held).into_iter().chain([held.scratch()]);
        for (number, (room, asked)) in [nodes, links, symbols, scratch].into_iter().zip(asked).enumerate() {
            room.fill(7);
            if number == small {
                room.truncate(asked - 1);
            }
            sizes[number] = room.len().max(asked);
        }
        let list = others.list.clone();
        let left = tree.keep(&[false, true, true], &mut others).unwrap();
        assert_eq!(
            (spelled(&left), left.text(), left.held().edition),
            (latest.clone(), &text[..], held.edition)
        );
        assert_eq!((left.rows().count(), left.held().builtins), (6, 2));
        let used = lengths(left.held());
        let Rooms { nodes, links, symbols, scratch, .. } = &others;
        assert_eq!([nodes, links, symbols, scratch].map(Vec::len), sizes);
        for (room, used) in three(&others).into_iter().zip(used) {
            assert!(room[used..].iter().all(|&number| number == 0));
        }
        assert!(scratch.iter().all(|&number| number == 0));
        assert_eq!(others.list, list);
    }

    // of what is left again, and of a copy of all
    let [mut second, mut third] = [Rooms::default(), Rooms::default()];
    let left = tree.keep(&[true, false, true], &mut second).unwrap();
    assert_eq!(spelled(&left), [show.clone(), advance.clone(), early.clone(), None]);
    let last = left.keep(&[false, true], &mut third).unwrap();
    assert_eq!((spelled(&last), last.rows().count()), ([show.clone(), advance.clone(), None, None], 3));
    let mut fourth = Rooms::default();
    let all = tree.keep(&[true; 3], &mut fourth).unwrap();
    assert_eq!((numbers(&all), spelled(&all)), (numbers(&tree), [show.clone(), advance, early, late]));
    assert_eq!(numbers(&tree), before.each_ref().map(|rows| &rows[..]));
    assert_eq!((tree.tokens().len(), tree.text()), (15, &text[..]));

    // no text and no names, and still the number of names
    let bare = rooms.keep(held, &[true; 3]).unwrap();
    let copy = bare.keep(&[false, true, true], &mut second).unwrap();
    assert_eq!((spelled(&copy), copy.held().builtins), ([const { None }; 4], 2));
    assert_eq!(spelled(&copy.with_text(text)), [None, None, latest[2].clone(), None]);
    let copy = bare.with_builtins(names.lend()).keep(&[false, true, true], &mut third).unwrap();
    assert_eq!((spelled(&copy), copy.text()), ([show, latest[1].clone(), None, None], &b""[..]));
    // a name of no bytes that another build wrote: it stands in an empty text, and not in none
    let nodes = [10, 0, 0, 0, 0, 0, 0, 0, 0, 1, 20, 0, 0, 0, 1, u32::MAX, 0, 0, 0, u32::MAX];
    let sent = Tree::from_rows(&nodes, &[0; 3], &[0; 2], [2, 1, 1], Edition::FIRST, &mut [0; 4]).unwrap();
    assert_eq!(sent.keep(&[true], &mut second).unwrap().symbol(0), None);
    assert_eq!(sent.with_text(b"").keep(&[true], &mut second).unwrap().symbol(0), Some(&b""[..]));

    // one of a station's scripts
    let mut station = Station::for_tokens(2, 16);
    let scripts = station.read(&["a; b; c;", "d; e; d;"], 64).unwrap();
    let left = scripts.get(1).unwrap().unwrap().keep(&[false, true, true], &mut second).unwrap();
    assert_eq!([0, 1, 2].map(|symbol| left.symbol(symbol)), [Some(&b"e"[..]), Some(b"d"), None]);
}

/// What is refused of a copy: the rooms have all rows then, and the tree stays.
#[test]
fn refused_in_other_rooms() {
    let [mut rooms, mut others] = [Rooms::for_tokens(16), Rooms::default()];
    let mut refusal = |tree: Tree, choice: &[bool]| {
        let before = numbers(&tree).map(<[u32]>::to_vec);
        let why = tree.keep(choice, &mut others).unwrap_err();
        let rows = numbers(&tree);
        assert_eq!(rows, before.each_ref().map(|rows| &rows[..]));
        for (room, rows) in three(&others).into_iter().zip(rows) {
            let (copied, behind) = room.split_at(rows.len());
            assert!(copied == rows && behind.iter().all(|&number| number == 0));
        }
        (why.code as u32, why.rule, why.row)
    };
    let tree = rooms.read(b"a; f(b); a;", 64).unwrap();
    for wrong in [&[][..], &[true], &[true; 2], &[false; 4], &[true; 300]] {
        assert_eq!(refusal(tree, wrong), (20, None, 0));
    }
    let held = tree.held();
    assert_eq!((held.symbols, rooms.keep(held, &[true; 2]).unwrap_err().code as u32), (3, 20));
    // a guard has no statements, and a script of nothing has none to choose
    assert_eq!(refusal(rooms.guard(b"f(a)", 64).unwrap(), &[]), (22, Some(Rule::Root), 2));
    assert_eq!(refusal(rooms.read(b"", 64).unwrap(), &[true]), (20, None, 0));
    // names that were not there
    let names = OwnedBuiltins::new(&["f", "g"]);
    let tree = rooms.read(b"a;", 64).unwrap().with_builtins(names.lend());
    assert_eq!(refusal(tree, &[true]), (15, None, 0));
}
