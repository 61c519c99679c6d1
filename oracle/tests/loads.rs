//! Request L7: calls that are worked out by hand, each thing that 19 is for, and that both comparisons find answers that are wrong.
use oracle::{
    joined::{corners, given, made, small},
    lexer::Lexer,
    loads::{ANSWER, Came, FAULTS, Fault, Left, Load, Source, difference},
    rooms::{Judge, WIDTHS},
    stations::Calls,
};

const ABSENT: u32 = u32::MAX;
/// The rows of `a;` alone: a name and the root. Document 01 has them.
const NODES: [u32; 20] = [10, 0, 1, 0, 0, 1, 0, 0, 0, 1, 20, 0, 0, 0, 1, ABSENT, 0, 0, 0, ABSENT];

fn left(load: &Load) -> Left {
    load.left(&Lexer::new()).0
}

/// Numbers that are kept: i + 1 at number i, from one place up to another.
fn kept(from: u32, to: u32) -> Vec<u32> {
    (from + 1..=to).collect()
}

#[test]
fn by_hand() {
    // 'a;' and 'c;' are accepted, 'b' lacks a `;` at its Eof; a part has three rows, and each room two numbers more
    let mut load = given(3, &["a;", "b", "c;"]);
    assert_eq!(load.cuts, [2, 9, 3, 15, 5, 24]);
    load.rooms = [92, 29, 20, 29];
    load.answers = 26;
    let left = left(&load);
    assert_eq!((left.code, &left.list), (0, &load.list));
    let accepted = [0, 2, 1, 1, 0, 0, 0, 255];
    let answers = [&accepted[..], &[8, 0, 0, 0, 1, 1, 1, 41], &accepted, &[25, 26]].concat();
    assert_eq!(left.answers, answers);
    let nodes = [&NODES[..], &[0; 10], &[0; 30], &NODES, &[0; 10], &[91, 92]].concat();
    assert_eq!(left.rooms[0], nodes);
    assert_eq!(left.rooms[1], [&[0; 27][..], &[28, 29]].concat());
    assert_eq!(left.rooms[2], [&[0, 1, 0, 0, 0, 0][..], &[0; 6], &[0, 1, 0, 0, 0, 0], &[19, 20]].concat());
    assert_eq!(left.rooms[3], [&[0; 27][..], &[28, 29]].concat());
}

#[test]
fn turned_away_at_the_door() {
    // the second list is empty and the third's scratch rows are too few: both parts are as they were
    let left = left(&given(3, &["", "a;", "a + b;"]));
    assert_eq!(left.answers[..16], [0, 1, 0, 0, 0, 0, 0, 255, 0, 2, 1, 1, 0, 0, 0, 255]);
    assert_eq!(left.answers[16..], [4, 0, 0, 0, 0, 0, 0, 255]);
    assert_eq!(left.rooms[0][30..50], NODES);
    assert_eq!(left.rooms[0][60..], kept(60, 90));
    assert_eq!(left.rooms[3][18..], kept(18, 27));
    let mut load = given(3, &["a;", "b;"]);
    load.cuts[1] = 0;
    let left = self::left(&load);
    assert_eq!(left.answers[..8], [1, 0, 0, 0, 0, 0, 0, 255]);
    assert_eq!(left.rooms[0][..30], kept(0, 30));
}

#[test]
fn made_lists() {
    // a word that is cut in two is two words; where no list is made its part is zero or as it was, and the rooms are as they were
    let left = left(&made(4, &[(b"a", 6), (b"b;", 12), (b"$", 3), (b"\x80", 3), (b"a;", 8)]));
    assert_eq!(left.list[..6], [43, 0, 1, 44, 1, 1]);
    assert_eq!(left.list[6..18], [43, 0, 1, 41, 1, 2, 44, 2, 2, 0, 0, 0]);
    assert_eq!(left.list[18..], [&[0, 0, 0][..], &[22, 23, 24], &[0; 8]].concat());
    assert_eq!(left.answers[..16], [8, 0, 0, 0, 1, 1, 1, 41, 0, 2, 1, 1, 0, 0, 0, 255]);
    let unmade = [16, 0, 0, 0, 0, 0, 1, 255, 5, 0, 0, 0, 0, 0, 1, 255, 1, 0, 0, 0, 0, 0, 0, 255];
    assert_eq!(left.answers[16..], unmade);
    assert_eq!(left.rooms[0][80..], kept(80, 200));
}

#[test]
fn faults() {
    let base = given(2, &["a;", "b;", "c;"]);
    assert_eq!(base.faults(), []);
    let with_cuts = |cuts: &[u32]| Load { cuts: cuts.to_vec(), ..base.clone() }.faults();
    assert_eq!(with_cuts(&[]), [Fault::None]);
    assert_eq!(with_cuts(&[0]), [Fault::None, Fault::Odd]);
    assert_eq!(with_cuts(&[2, 9, 6]), [Fault::Odd]);
    // equal cuts, a last cut before the ends, and cuts at the ends are right
    for right in [&[0, 0][..], &[0, 0, 0, 0, 0, 0], &[6, 27], &[6, 27, 6, 27], &[2, 27, 2, 27]] {
        assert_eq!(with_cuts(right), [], "{right:?}");
    }
    assert_eq!(with_cuts(&[2, 9, 1, 9]), [Fault::Back]);
    assert_eq!(with_cuts(&[2, 9, 2, 8]), [Fault::Back]);
    assert_eq!(with_cuts(&[2, 9, 4, 18, 3, 27]), [Fault::Back]);
    assert_eq!(with_cuts(&[7, 9]), [Fault::Past]);
    assert_eq!(with_cuts(&[6, 28]), [Fault::Past]);
    assert_eq!(with_cuts(&[7, 9, 6, 9]), [Fault::Back, Fault::Past]);
    assert_eq!(with_cuts(&[2, 9].repeat(4)), [Fault::Small, Fault::Answers]);
    for room in 0..4 {
        let mut load = base.clone();
        load.rooms[room] -= 1;
        assert_eq!(load.faults(), [Fault::Small]);
        load.rooms[room] += 2;
        assert_eq!(load.faults(), []);
    }
    assert_eq!(Load { answers: 23, ..base.clone() }.faults(), [Fault::Answers]);
    assert_eq!(Load { part: 3, ..base.clone() }.faults(), [Fault::Small]);
    assert_eq!(Load { part: 1 << 31, ..base.clone() }.faults(), [Fault::Small]);
    let many = |count| given(1, &vec!["a;"; count]);
    assert_eq!(many(32).faults(), []);
    assert_eq!(many(33).faults(), [Fault::Many]);
    // nothing is changed
    let load = Load { answers: 23, ..base };
    assert_eq!(left(&load), Left { code: 19, ..load.before() });
}

/// Calls to look at: those that are written down, and some that are drawn.
fn calls() -> Vec<Load> {
    let calls = Calls::new(5);
    (0..corners().len() as u64 + 600).map(|index| calls.get(index)).collect()
}

#[test]
fn frames() {
    for load in calls() {
        assert!(load.is_taken());
        assert_eq!(Load::decode(&load.encode()).as_ref(), Some(&load));
        let left = left(&load);
        assert_eq!(load.taken(&left.encode()), Some(left));
    }
}

/// A reader that is wrong, as what it leaves in place of what is right.
type Wrong = fn(&Load, &Left) -> Left;

/// Spans in the joined text: of the answer, and of node rows.
fn joined_spans(load: &Load, right: &Left) -> Left {
    let mut left = right.clone();
    for (script, [text, _]) in load.scripts().into_iter().enumerate() {
        let answer = &mut left.answers[ANSWER * script..][..ANSWER];
        if answer[5..7] != [0, 0] {
            answer[5..7].iter_mut().for_each(|offset| *offset = offset.wrapping_add(text.start as u32));
        }
        let first = (10 * load.part) as usize * script;
        for row in left.rooms[0][first..][..10 * answer[1] as usize].chunks_mut(10) {
            row[1..3].iter_mut().for_each(|offset| *offset += text.start as u32);
        }
    }
    left
}

/// Each part a row further on, where there is one.
fn moved_parts(load: &Load, right: &Left) -> Left {
    let mut left = right.clone();
    let rows = load.part as usize * load.count();
    for (room, width) in left.rooms.iter_mut().zip(WIDTHS.map(|width| width as usize)) {
        if rows > 0 {
            room.copy_within(..width * (rows - 1), width);
        }
    }
    left
}

/// No script is read behind the first that is refused.
fn stops(load: &Load, right: &Left) -> Left {
    let codes: Vec<_> = right.answers.chunks(ANSWER).take(load.count()).map(|answer| answer[0]).collect();
    let read = codes.iter().position(|code| *code != 0).map_or(codes.len(), |refused| refused + 1);
    let (mut left, before) = (right.clone(), load.before());
    left.answers[ANSWER * read..].copy_from_slice(&before.answers[ANSWER * read..]);
    for room in 0..4 {
        let from = load.parts()[room] as usize * read;
        left.rooms[room][from..].copy_from_slice(&before.rooms[room][from..]);
    }
    left
}

/// The last number of each room, which may lie past the parts, is zero.
fn zeroes_all(_: &Load, right: &Left) -> Left {
    let mut left = right.clone();
    let lists = left.rooms.iter_mut().chain([&mut left.list, &mut left.answers]);
    lists.filter_map(|list| list.last_mut()).for_each(|last| *last = 0);
    left
}

/// A part that is zeroed where the door turns its script away.
fn zeroes_parts(load: &Load, right: &Left) -> Left {
    let mut left = right.clone();
    for (script, answer) in right.answers.chunks(ANSWER).take(load.count()).enumerate() {
        let part = load.parts()[3] as usize;
        if answer[0] != 0 {
            left.rooms[3][part * script..][..part].fill(0);
        }
    }
    left
}

/// The next script's answer in place of a script's own.
fn shifted_answers(load: &Load, right: &Left) -> Left {
    let mut left = right.clone();
    left.answers.copy_within(ANSWER..ANSWER * load.count(), 0);
    left
}

const WRONG: [(&str, Wrong); 6] = [
    ("spans in the joined text", joined_spans),
    ("parts a row further on", moved_parts),
    ("a stop at the first refusal", stops),
    ("numbers past the parts", zeroes_all),
    ("parts of scripts that are turned away", zeroes_parts),
    ("answers in another's place", shifted_answers),
];

/// Each is found where it leaves something else, and often enough: a wrong answer is one that `difference` names.
#[test]
fn wrong_readers_are_found() {
    let calls = calls();
    for (name, wrong) in WRONG {
        let mut found = [0, 0];
        for load in calls.iter().filter(|load| load.faults().is_empty()) {
            let right = left(load);
            let given = wrong(load, &right);
            let taken = load.taken(&given.encode()).expect("an answer of the right length");
            let is_found = difference(&right, &taken).is_some();
            assert_eq!(is_found, given != right, "{name}");
            found[load.source as usize] += is_found as usize;
        }
        assert!(found.iter().all(|found| *found > 20), "{name}: found in {found:?} calls");
    }
}

/// The second judge, which asks about each script alone, agrees with what is right, and finds all wrong readers but those that change
/// only what is past the parts.
#[test]
fn each_script_alone() {
    let mut judge = Judge::default();
    let mut found = [0; WRONG.len()];
    let mut asked = 0;
    for load in calls().iter().filter(|load| load.faults().is_empty()) {
        let right = left(load);
        let wrong = WRONG.map(|(_, wrong)| wrong(load, &right));
        let mut is_found = [false; WRONG.len()];
        for (script, frame) in load.alone().into_iter().enumerate() {
            let Some(frame) = frame else { continue };
            let batch = judge.answer(&frame);
            asked += 1;
            assert!(load.agrees(script, &right, &batch));
            for (is_found, wrong) in is_found.iter_mut().zip(&wrong) {
                *is_found |= !load.agrees(script, wrong, &batch);
            }
        }
        found.iter_mut().zip(is_found).for_each(|(found, is_found)| *found += is_found as usize);
    }
    assert!(asked > 1_000);
    assert!(found.iter().all(|found| *found > 20), "{found:?}");
}

/// A call that is turned away and changes something, and one that is not turned away.
#[test]
fn nothing_is_changed() {
    for load in calls().iter().filter(|load| !load.faults().is_empty()) {
        let right = left(load);
        let mut given = right.clone();
        given.code = 0;
        assert!(difference(&right, &given).is_some());
        for list in 0..6 {
            let mut given = right.clone();
            let [nodes, links, symbols, scratch] = &mut given.rooms;
            let room =
                [&mut given.list, nodes, links, symbols, scratch, &mut given.answers].into_iter().nth(list);
            let Some(number) = room.and_then(|room| room.first_mut()) else { continue };
            *number += 1;
            assert!(difference(&right, &given).is_some());
        }
    }
}

/// What the calls of a run show, and those of the fixed list.
#[test]
fn coverage() {
    for (calls, long) in [(calls(), true), (small(), false)] {
        let lexer = Lexer::new();
        let came = |source: Source| -> Vec<Came> {
            let of = calls.iter().filter(|load| load.source == source);
            of.flat_map(|load| load.left(&lexer).1).collect()
        };
        let both = [4, 8, 9, 10, 11].map(Came::Read).into_iter().chain([3, 4, 18, 21].map(Came::Door));
        let both: Vec<_> = both.chain([Came::Accepted]).collect();
        let given = came(Source::Given);
        let wanted = both.iter().copied().chain([1, 5, 6, 7].map(Came::Door));
        for wanted in wanted.chain(long.then_some(Came::Door(2))) {
            assert!(given.contains(&wanted), "{wanted:?}");
        }
        let made = came(Source::Made);
        let wanted = both.iter().copied().chain([1, 5, 16].map(Came::Unmade));
        for wanted in wanted.chain(long.then_some(Came::Unmade(2))) {
            assert!(made.contains(&wanted), "{wanted:?}");
        }
        for fault in FAULTS {
            assert!(calls.iter().any(|load| load.faults() == [fault]), "{fault:?} alone");
        }
    }
}
