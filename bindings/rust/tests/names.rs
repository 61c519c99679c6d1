//! Scripts beside built-in names, held to an interner that is given these first; and the names of symbols.
#[allow(dead_code)]
mod rows;

use std::collections::HashMap;

use kaori_syntax::{
    Builtins, Code, Edition, Kind, Lent, Name, Node, OwnedBuiltins, Refusal, Rooms, SCRATCH_WIDTH,
    SYMBOL_WIDTH, TOKEN_WIDTH, Tree, name, parse_with, read_with,
};
use rows::{decode, frame};

const LIST: &[u8] = include_bytes!("../../../crates/replay/stdin");

/// The symbols of a row's node, in their order.
fn symbols(node: &Node) -> Vec<u32> {
    let list = |names: &mut dyn Iterator<Item = Name>| names.map(|name| name.symbol).collect();
    match *node {
        Node::Variable { left: name, .. }
        | Node::Constant { left: name, .. }
        | Node::Ref { left: name, .. }
        | Node::Identifier(name)
        | Node::PropertyAccess { property: name, .. } => vec![name.symbol],
        Node::String(symbol) => vec![symbol],
        Node::Function { name, parameters, .. } => list(&mut [name].into_iter().chain(parameters.iter())),
        Node::Lambda { parameters, .. } => list(&mut parameters.iter()),
        Node::Import { path, bindings } => list(&mut path.iter().chain(bindings.iter())),
        _ => vec![],
    }
}

/// What an interner that is given the built-in names first makes of the words of a script: the symbol rows, and for each symbol
/// of the script alone its symbol beside them.
fn interned(builtins: Builtins, plain: &Tree) -> (Vec<u32>, Vec<u32>) {
    let mut known = HashMap::new();
    let mut all = Vec::new();
    for row in builtins.rows.chunks_exact(SYMBOL_WIDTH) {
        known.insert(&builtins.text[row[0] as usize..row[1] as usize], known.len() as u32);
        all.extend(row);
    }
    let mut beside = Vec::new();
    for (symbol, row) in plain.symbol_rows().iter().enumerate() {
        let next = known.len() as u32;
        let new = *known.entry(plain.symbol(symbol as u32).unwrap()).or_insert(next);
        if new == next {
            all.extend(row);
        }
        beside.push(new);
    }
    (all, beside)
}

/// Holds a script that was read beside names to the same script alone.
fn held(builtins: Builtins, ours: &Tree, plain: &Tree) {
    let (rows, beside) = interned(builtins, plain);
    assert_eq!(ours.symbol_rows().concat(), rows);
    assert_eq!(ours.rows().count(), plain.rows().count());
    for (row, alone) in ours.rows().zip(plain.rows()) {
        assert_eq!((row.number, row.span, row.parent), (alone.number, alone.span, alone.parent));
        let renamed: Vec<_> = symbols(&alone.node).iter().map(|&symbol| beside[symbol as usize]).collect();
        assert_eq!(symbols(&row.node), renamed);
    }
    for (symbol, &new) in beside.iter().enumerate() {
        assert_eq!(ours.symbol(new), plain.symbol(symbol as u32));
    }
    for number in 0..builtins.count() {
        let row = &builtins.rows[SYMBOL_WIDTH * number as usize..];
        assert_eq!(ours.symbol(number), builtins.text.get(row[0] as usize..row[1] as usize));
    }
    assert_eq!((ours.symbol(ours.symbol_rows().len() as u32), ours.symbol(u32::MAX)), (None, None));
}

/// Each case of the fixed list, beside names that it has and names that it has not.
#[test]
fn the_rusts_scripts() {
    let (mut rest, mut scripts, mut refused, mut met) = (LIST, 0, 0, 0);
    while let Some(case) = frame(&mut rest) {
        frame(&mut rest).expect("an answer");
        let Some((text, tokens)) = decode(case) else { continue };
        let mut alone = Rooms::for_tokens(512);
        let plain = alone.parse(text, &tokens, 64);
        // the identifiers of what was let in
        let let_in = plain.as_ref().err().is_none_or(|why| why.code >= Code::Required);
        let mut words: Vec<&str> = tokens
            .chunks_exact(TOKEN_WIDTH)
            .filter(|token| let_in && token[0] == Kind::Identifier as u32)
            .filter_map(|token| std::str::from_utf8(text.get(token[1] as usize..token[2] as usize)?).ok())
            .collect();
        words.sort();
        words.dedup();
        words.truncate(60);
        let other = ["station_1", "show_all"];
        let some: Vec<&str> = other.iter().chain(words.iter().step_by(2)).copied().collect();
        let most: Vec<&str> = words.iter().rev().chain(&other).copied().collect();
        for names in [&some, &most, &Vec::new()] {
            let station = OwnedBuiltins::new(names);
            let builtins = station.lend();
            let mut rooms = Rooms::for_tokens_with(builtins, 512);
            match (rooms.parse_with(builtins, text, &tokens, Edition::FIRST, 64), &plain) {
                (Ok(ours), Ok(plain)) => {
                    held(builtins, &ours, plain);
                    met += usize::from(ours.symbol_rows().len() < plain.symbol_rows().len() + names.len());
                    scripts += 1;
                }
                (ours, plain) => {
                    assert_eq!(ours.err(), plain.as_ref().err().copied());
                    refused += 1;
                }
            }
        }
    }
    assert!(scripts > 500 && refused > 500 && met > 100, "{scripts} scripts, {refused} refused, {met} met");
}

fn four(rooms: &mut Rooms) -> [&mut Vec<u32>; 4] {
    [&mut rooms.nodes, &mut rooms.links, &mut rooms.symbols, &mut rooms.scratch]
}

/// The refusal of a text beside names in rooms that held 7 throughout, and what they hold then.
fn refusal(builtins: Builtins, text: &[u8], mut rooms: Rooms) -> (Refusal, Option<u32>) {
    for room in four(&mut rooms) {
        room.fill(7);
    }
    let why = rooms.read_with(builtins, text, Edition::FIRST, 64).expect_err("a refusal");
    let numbers: Vec<u32> = four(&mut rooms).iter().flat_map(|room| room.iter().copied()).collect();
    (why, numbers.first().copied().filter(|first| numbers.iter().all(|number| number == first)))
}

#[test]
fn wrong_names() {
    let long = "a".repeat(65_537);
    let many: Vec<String> = (0..65).map(|i| format!("name{i}")).collect();
    let many: Vec<&str> = many.iter().map(String::as_str).collect();
    let wrong: [&[&str]; 9] =
        [&["a", "b", "a"], &[""], &["if"], &["1a"], &["a b"], &["a-"], &["\u{e9}"], &[&long], &many];
    for names in wrong {
        let station = OwnedBuiltins::new(names);
        let (why, left) = refusal(station.lend(), b"a;", Rooms::for_tokens_with(station.lend(), 8));
        assert_eq!(
            (why.code as u32, why.at, why.span.start, why.expected, why.found),
            (18, 0, 0, None, None)
        );
        assert_eq!((left, why.to_string()), (Some(7), "the built-in names are wrong".to_string()));
        // the token maker's refusals and a 4 for scratch come before it, what is wrong with the room for the rows after it
        assert_eq!(refusal(station.lend(), b"a @", Rooms::for_tokens(8)).0.code, Code::NoToken);
        let mut small = Rooms::for_tokens(8);
        small.scratch.truncate(SCRATCH_WIDTH * 2);
        assert_eq!(refusal(station.lend(), b"a;", small).0.code, Code::SmallRoom);
        let mut small = Rooms::for_tokens(8);
        small.symbols.clear();
        assert_eq!(refusal(station.lend(), b"a;", small).0.code, Code::BadNames);
    }
    for rows in [[0, 3], [2, 1], [0, u32::MAX], [u32::MAX, 0]] {
        let (why, left) = refusal(Builtins { text: b"ab", rows: &rows }, b"a;", Rooms::for_tokens(8));
        assert_eq!((why.code, left), (Code::BadNames, Some(7)));
    }
    // names may share bytes and go back, other bytes do not matter, and a number left over is none
    let builtins = Builtins { text: b"xab\xff", rows: &[1, 3, 0, 2, 1, 2, 9] };
    let mut rooms = Rooms::for_tokens_with(builtins, 8);
    let tree = rooms.read_with(builtins, b"xa;ab;", Edition::FIRST, 64).unwrap();
    let names: Vec<_> = (0..4).map(|symbol| tree.symbol(symbol)).collect();
    assert_eq!(names, [Some(&b"ab"[..]), Some(&b"xa"[..]), Some(&b"a"[..]), None]);
    // 64 are not too many
    let station = OwnedBuiltins::new(&many[..64]);
    let mut rooms = Rooms::for_tokens_with(station.lend(), 3);
    assert_eq!(
        rooms.read_with(station.lend(), b"a;", Edition::FIRST, 64).map(|tree| tree.symbol_rows().len()),
        Ok(65)
    );
}

#[test]
fn room_for_the_names() {
    let station = OwnedBuiltins::new(&["show", "print"]);
    let builtins = station.lend();
    // two rows for the names, and one for `a`
    for numbers in 0..8 {
        let mut rooms = Rooms::for_tokens(8);
        rooms.symbols.resize(numbers, 0);
        if numbers < 6 {
            let (why, left) = refusal(builtins, b"show(a);", rooms);
            let met = numbers >= 4;
            assert_eq!(
                (why.code, why.at, why.found),
                (Code::SmallRoom, 2 * u32::from(met), met.then_some(Kind::Identifier))
            );
            assert_eq!(left, Some(if met { 0 } else { 7 }));
        } else {
            assert_eq!(
                rooms.read_with(builtins, b"show(a);", Edition::FIRST, 64).map(|tree| tree.rows().count()),
                Ok(4)
            );
        }
    }
    // grown until they fit
    let mut rooms = Rooms::with_rows(0, 0, 0, 6);
    let mut turns = 0;
    let count = loop {
        match rooms.read_with(builtins, b"show(a);", Edition::FIRST, 64) {
            Ok(tree) => break tree.symbol_rows().len(),
            Err(why) => rooms.grow_with(builtins, why).expect("room to grow"),
        }
        turns += 1;
    };
    assert_eq!(count, 3);
    assert!((2..8).contains(&turns));
    // and no further
    let mut rooms = Rooms::for_tokens_with(builtins, 6);
    let why = Refusal {
        code: Code::SmallRoom,
        at: 0,
        span: Default::default(),
        byte: None,
        expected: None,
        found: Some(Kind::Identifier),
        edition: Edition::FIRST,
        limit: 64,
        guard: false,
    };
    assert_eq!(rooms.grow_with(builtins, why), Err(why));
    assert_eq!(
        rooms.grow_with(builtins, Refusal { found: None, ..why }),
        Err(Refusal { found: None, ..why })
    );
    assert_eq!(rooms.symbols.len(), SYMBOL_WIDTH * 8);
}

#[test]
fn slices_of_the_callers() {
    let station = OwnedBuiltins::new(&["a"]);
    let (mut list, mut nodes, mut links, mut symbols, mut scratch) =
        ([9; 9], [9; 20], [9; 3], [9; 3], [9; 9]);
    let lent = Lent { nodes: &mut nodes, links: &mut links, symbols: &mut symbols, scratch: &mut scratch };
    let tree = read_with(station.lend(), b"a;", &mut list, Edition::FIRST, 64, lent).unwrap();
    assert_eq!((tree.rows().count(), tree.symbol(0)), (2, Some(&b"a"[..])));
    assert_eq!(symbols, [0, 1, 0]);
    let lent = Lent { nodes: &mut nodes, links: &mut links, symbols: &mut symbols, scratch: &mut scratch };
    let tree = parse_with(station.lend(), b"a;", &list, Edition::SECOND, 64, lent).unwrap();
    assert_eq!(tree.symbol_rows(), [[0, 1]]);
    let lent = Lent { nodes: &mut [], links: &mut [], symbols: &mut [], scratch: &mut [] };
    assert_eq!(
        parse_with(station.lend(), b"", &[], Edition::SECOND, 64, lent).unwrap_err().code,
        Code::BadCount
    );
}

/// Rows that no reader wrote: a row is held to its own text, which the symbol's number chooses, and nothing panics.
#[test]
fn any_rows() {
    let builtins = Builtins { text: b"show", rows: &[0, 4] };
    let symbols = [0, 4, 0, 4, 1, 1, 3, 2, 2, 3, u32::MAX, u32::MAX, 1];
    let told = |count, symbol| name(builtins, b"abc", &symbols, count, symbol);
    let all: Vec<_> = (0..8).map(|symbol| told(8, symbol)).collect();
    assert_eq!(all, [Some(&b"show"[..]), None, Some(&b""[..]), None, Some(&b"c"[..]), None, None, None]);
    assert_eq!((told(2, 2), told(0, 0), told(u32::MAX, u32::MAX)), (None, None, None));
    assert_eq!(name(Builtins::NONE, b"abc", &symbols, 8, 0), None);
    assert_eq!(name(Builtins::NONE, b"abcd", &symbols, 8, 0), Some(&b"abcd"[..]));
    assert_eq!(name(builtins, b"abc", &[], 8, 0), None);
}
