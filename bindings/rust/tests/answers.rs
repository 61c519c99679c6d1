//! Holds the boundary to the Rust parser's answers: the fixed list that the program `replay` reads too. It is a stream of
//! frames (4 bytes of length, little-endian), a case and its answer in turn, as the program `rows` reads and prints them.
mod rows;

use kaori_syntax::{LINK_WIDTH, NODE_WIDTH, Rooms, SYMBOL_WIDTH};
use rows::{answer, decode, frame};

const LIST: &[u8] = include_bytes!("../../../crates/replay/stdin");
/// What `replay` prints: `N of N agree`.
const COUNTED: &str = include_str!("../../../crates/replay/stdout");

/// What document 01 says of the rooms after a call whose rooms held 7 throughout.
fn check_rooms(rooms: &Rooms, code: u32, counts: [usize; 3]) {
    let used = [NODE_WIDTH * counts[0], LINK_WIDTH * counts[1], SYMBOL_WIDTH * counts[2], 0];
    for (room, used) in [&rooms.nodes, &rooms.links, &rooms.symbols, &rooms.scratch].into_iter().zip(used) {
        let rest = if (1..=7).contains(&code) { 7 } else { 0 };
        assert!(room[used..].iter().all(|&number| number == rest), "code {code}");
    }
}

#[test]
fn the_rusts_answers() {
    let (mut rest, mut cases, mut accepted, mut from_text) = (LIST, 0, 0, 0);
    while let Some(case) = frame(&mut rest) {
        let expected = std::str::from_utf8(frame(&mut rest).expect("an answer")).unwrap();
        cases += 1;
        let Some((text, tokens)) = decode(case) else {
            assert_eq!(expected, "bad input\n");
            continue;
        };
        let mut rooms = Rooms::for_tokens(512);
        for room in [&mut rooms.nodes, &mut rooms.links, &mut rooms.symbols, &mut rooms.scratch] {
            room.fill(7);
        }
        let ours = rooms.parse(text, &tokens, 64);
        let code = ours.as_ref().err().map_or(0, |refusal| refusal.code as u32);
        let counts = ours.as_ref().map_or([0; 3], |tree| {
            [tree.node_rows().len(), tree.link_rows().len(), tree.symbol_rows().len()]
        });
        accepted += usize::from(code == 0);
        assert_eq!(answer(ours), expected, "{:?} {tokens:?}", String::from_utf8_lossy(text));
        check_rooms(&rooms, code, counts);

        // where the token maker makes the case's tokens, `read` has the same answer
        let ours = answer(rooms.read(text, 64));
        let made = tokens.len() <= rooms.list.len() && rooms.list[..tokens.len()] == tokens[..];
        if made && tokens.len().checked_sub(3).is_some_and(|eof| tokens[eof] == 44) {
            from_text += 1;
            assert_eq!(ours, expected, "{:?}", String::from_utf8_lossy(text));
        }
    }
    assert!(rest.is_empty());
    assert_eq!(format!("{cases} of {cases} agree\n"), COUNTED);
    assert!(accepted > 100 && from_text > 100, "{accepted} accepted, {from_text} from the text");
}
