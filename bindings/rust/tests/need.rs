//! What a script needs of the node, link and symbol rooms: as many rows as its tree has, and no more. With less it is refused
//! by 4 and the rooms are zeros; a larger room changes nothing. The scripts are those of the fixed list of the Rust's answers.
#[allow(dead_code)]
mod rows;

use kaori_syntax::{
    Code, Kind, LINK_WIDTH, Lent, NODE_WIDTH, Refusal, Rooms, SYMBOL_WIDTH, TOKEN_WIDTH, Tree, parse, read,
};
use rows::{decode, frame};

const LIST: &[u8] = include_bytes!("../../../crates/replay/stdin");

/// Rooms of so many rows that hold 7 throughout.
fn stale([nodes, links, symbols]: [usize; 3], tokens: usize) -> Rooms {
    let mut rooms = Rooms::with_rows(nodes, links, symbols, tokens);
    for room in four(&mut rooms) {
        room.fill(7);
    }
    rooms
}

fn four(rooms: &mut Rooms) -> [&mut Vec<u32>; 4] {
    [&mut rooms.nodes, &mut rooms.links, &mut rooms.symbols, &mut rooms.scratch]
}

fn hold(rooms: &mut Rooms, number: u32) -> bool {
    four(rooms).iter().all(|room| room.iter().all(|&held| held == number))
}

fn counts(tree: &Tree) -> [usize; 3] {
    [tree.node_rows().len(), tree.link_rows().len(), tree.symbol_rows().len()]
}

fn numbers(tree: &Tree) -> [Vec<u32>; 3] {
    [tree.node_rows().concat(), tree.link_rows().concat(), tree.symbol_rows().concat()]
}

/// A 4 that was met in reading has the numbers of a token, and leaves zeros.
fn met_at(why: Refusal, tokens: &[u32], rooms: &mut Rooms) -> u32 {
    let token = &tokens[TOKEN_WIDTH * why.at as usize..][..TOKEN_WIDTH];
    assert_eq!((why.code, why.expected, why.found), (Code::SmallRoom, None, Kind::from_u32(token[0])));
    assert!(why.found.is_some());
    assert_eq!([why.span.start, why.span.end], token[1..]);
    assert!(hold(rooms, 0));
    why.at
}

/// Each case of the list with its tokens and what comes of it in rooms with a row for each token.
fn each_case(mut held: impl FnMut(&[u8], &[u32], Result<&Tree, Refusal>)) {
    let mut rest = LIST;
    while let Some(case) = frame(&mut rest) {
        frame(&mut rest).expect("an answer");
        if let Some((text, tokens)) = decode(case) {
            let mut rooms = Rooms::for_tokens(tokens.len() / TOKEN_WIDTH);
            let full = rooms.parse(text, &tokens, 64);
            held(text, &tokens, full.as_ref().map_err(|&why| why));
        }
    }
}

#[test]
fn just_enough() {
    let (mut scripts, mut short) = (0, 0);
    each_case(|text, tokens, full| {
        let Ok(full) = full else { return };
        let (need, count) = (counts(full), tokens.len() / TOKEN_WIDTH);
        scripts += 1;
        // so many rows take the same rows; so do a few more, and zeros follow them
        for more in [0, 1, 5] {
            let mut rooms = stale(need.map(|rows| rows + more), count);
            let tree = rooms.parse(text, tokens, 64).expect("rooms of just enough rows");
            assert_eq!(numbers(&tree), numbers(full));
            let used = [NODE_WIDTH * need[0], LINK_WIDTH * need[1], SYMBOL_WIDTH * need[2], 0];
            for (room, used) in four(&mut rooms).into_iter().zip(used) {
                assert!(room[used..].iter().all(|&number| number == 0));
            }
        }
        // a number less in one of them, and its last row does not fit: what is left over is no row
        for room in (0..3).filter(|&room| 0 < need[room]) {
            let mut rooms = stale(need, count);
            four(&mut rooms)[room].pop();
            let why = rooms.parse(text, tokens, 64).expect_err("a room that is a number short");
            met_at(why, tokens, &mut rooms);
            short += 1;
        }
    });
    assert!(scripts > 200 && short > 500, "{scripts} scripts, {short} rooms");
}

#[test]
fn smaller_and_larger() {
    let mut short = 0;
    each_case(|text, tokens, full| {
        let count = tokens.len() / TOKEN_WIDTH;
        for rows in
            [[0; 3], [1, 0, 1], [2, 1, 1], [4, 2, 2], [count, count, 0], [count, 0, count], [0, count, count]]
        {
            let mut rooms = stale(rows, count);
            let ours = rooms.parse(text, tokens, 64).map(|tree| numbers(&tree));
            match full {
                // what fits has its rows
                Ok(full) if counts(full).iter().zip(rows).all(|(&need, rows)| need <= rows) => {
                    assert_eq!(ours, Ok(numbers(full)))
                }
                Ok(_) => {
                    met_at(ours.unwrap_err(), tokens, &mut rooms);
                    short += 1;
                }
                // a refusal stays as it is, unless a row that does not fit is met before it
                Err(why) if ours == Err(why) => {
                    assert!(hold(&mut rooms, if why.code < Code::Required { 7 } else { 0 }))
                }
                Err(why) => {
                    assert!(
                        why.code >= Code::Required && met_at(ours.unwrap_err(), tokens, &mut rooms) <= why.at
                    )
                }
            }
        }
    });
    assert!(short > 500, "{short}");
}

/// Node, link and symbol rows, and the token at which a row does not fit: its symbol at a name, a row at the token after its
/// node, a call's link and row after the `)`, the root's at the Eof.
#[test]
fn where_it_is_met() {
    let text = b"f(a);";
    let ladder = [
        ([0, 0, 0], 0),
        ([0, 0, 1], 1),
        ([1, 0, 1], 2),
        ([1, 0, 2], 3),
        ([2, 0, 2], 4),
        ([2, 1, 2], 4),
        ([3, 1, 2], 5),
        ([3, 2, 2], 5),
    ];
    for (rows, at) in ladder {
        let mut rooms = stale(rows, 6);
        let why = rooms.read(text, 64).unwrap_err();
        let tokens = rooms.list.clone();
        assert_eq!(met_at(why, &tokens, &mut rooms), at, "{rows:?}");
        assert_eq!(why.to_string(), "too little room for the rows");
    }
    assert_eq!(stale([4, 2, 2], 6).read(text, 64).map(|tree| counts(&tree)), Ok([4, 2, 2]));
}

/// An Eof alone, without a node row: the eight numbers are those of scratch that is too small. What is left in the rooms is not,
/// and `found` says which it was.
#[test]
fn the_same_numbers() {
    let list = [44, 0, 0];
    let call = |scratch: &mut [u32]| {
        let lent = Lent { nodes: &mut [], links: &mut [], symbols: &mut [], scratch };
        parse(b"", &list, 64, lent).unwrap_err()
    };
    let (mut enough, mut small) = ([7; 3], [7; 2]);
    let (in_reading, at_the_door) = (call(&mut enough), call(&mut small));
    assert_eq!((in_reading.found, enough), (Some(Kind::Eof), [0; 3]));
    assert_eq!((at_the_door.found, small), (None, [7; 2]));
    assert_eq!(Refusal { found: None, ..in_reading }, at_the_door);

    // from the text it is the tokens that were made that count, not the room for them
    let mut list = [7; 12];
    let mut scratch = [7; 5];
    let lent = Lent { nodes: &mut [], links: &mut [], symbols: &mut [], scratch: &mut scratch };
    assert_eq!(read(b"", &mut list, 64, lent).unwrap_err(), in_reading);
    let lent = Lent { nodes: &mut [], links: &mut [], symbols: &mut [], scratch: &mut scratch };
    assert_eq!(read(b";", &mut list, 64, lent).unwrap_err(), at_the_door);
}

#[test]
fn grown() {
    let mut turns = 0;
    each_case(|text, tokens, full| {
        let mut rooms = Rooms::with_rows(0, 0, 0, tokens.len() / TOKEN_WIDTH);
        let ours = loop {
            match rooms.parse(text, tokens, 64) {
                Ok(tree) => break Ok(numbers(&tree)),
                Err(why) => match rooms.grow(why) {
                    Ok(()) => turns += 1,
                    Err(why) => break Err(why),
                },
            }
        };
        assert_eq!(ours, full.map(numbers));
    });
    assert!(turns > 0);

    // nothing to grow, or of no use
    let mut rooms = Rooms::for_tokens(3);
    let why = rooms.parse(b"a b", &[43, 0, 1, 43, 2, 3, 44, 3, 3], 64).unwrap_err();
    assert_eq!((why.code, rooms.grow(why)), (Code::Required, Err(why)));
    let short = Refusal { code: Code::SmallRoom, found: None, ..why };
    assert_eq!((Rooms::with_rows(0, 0, 0, 3).grow(short), rooms.grow(short)), (Err(short), Err(short)));
    let full = Refusal { code: Code::SmallRoom, ..why };
    assert_eq!((rooms.grow(full), Rooms::default().grow(full)), (Err(full), Err(full)));
    // up to a row for each token, and numbers that are left over stay
    let mut rooms = Rooms::with_rows(2, 0, 3, 3);
    rooms.nodes.push(7);
    assert_eq!(rooms.grow(full), Ok(()));
    assert_eq!([rooms.nodes.len(), rooms.links.len(), rooms.symbols.len()], [30, 3, 6]);
    assert_eq!(rooms.nodes[20], 7);
}

#[test]
fn rows_asked_for() {
    let lengths = |rooms: Rooms| {
        [rooms.nodes, rooms.links, rooms.symbols, rooms.scratch, rooms.list].map(|room| room.len())
    };
    assert_eq!(lengths(Rooms::with_rows(1, 2, 0, 3)), [10, 6, 0, 9, 9]);
    assert_eq!(lengths(Rooms::with_rows(9, 9, 9, 3)), lengths(Rooms::for_tokens(3)));
    assert_eq!(lengths(Rooms::with_rows(usize::MAX, 0, 0, usize::MAX)), [40_960, 0, 0, 12_288, 12_288]);
}
