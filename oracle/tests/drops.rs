//! Request L12: calls that are worked out by hand, the order of the refusals, that what is left of a script is the reading of the shorter list, and that
//! both comparisons find answers that are wrong.
use oracle::{
    choices::{Choice, Choices, Sort},
    drops::{Dropping, Left, accepted, asked, difference, packed},
    frame,
    kept::written,
    rooms::Judge,
    rows::ABSENT,
    terms::{FIRST, SECOND},
};

const ROOT: u32 = 20;

/// A name's row.
fn name(symbol: u32, start: u32, parent: u32) -> [u32; 10] {
    [10, start, start + 1, symbol, start, start + 1, 0, 0, 0, parent]
}

#[test]
fn by_hand() {
    // 'b' and the second 'a' are left, and first places with them
    let call = Choice::own(FIRST, &[], "a; b; a;", &[0, 1, 1]).dropping;
    let left = call.left();
    assert_eq!(left.answer, [0, 3, 2, 2, 0, 0]);
    let root = [ROOT, 0, 0, 0, 2, ABSENT, 0, 0, 0, ABSENT];
    assert_eq!(left.rooms[0], [name(0, 3, 2), name(1, 6, 2), root, [0; 10]].concat());
    assert_eq!(left.rooms[1], [0, 0, 0, 1, 0, 0, 0, 0, 0]);
    assert_eq!(left.rooms[2], [3, 4, 6, 7]);
    assert_eq!(left.rooms[3], [0; 16]);
    // the first alone: the freed symbol row is zero, too
    let left = Dropping { choice: vec![9, 0, 0], ..call.clone() }.left();
    assert_eq!(left.answer, [0, 2, 1, 1, 0, 0]);
    assert_eq!(left.rooms[2], [0, 1, 0, 0]);
    // nothing is left but the root; numbers past the counts stay
    let mut call = Dropping { choice: vec![0; 3], ..call };
    call.set.rooms.iter_mut().for_each(|room| room.push(5));
    let left = call.left();
    assert_eq!(left.answer, [0, 1, 0, 0, 0, 0]);
    let root = [ROOT, 0, 0, 0, 0, ABSENT, 0, 0, 0, ABSENT];
    assert_eq!(left.rooms[0], [&root[..], &[0; 30], &[5]].concat());
    assert_eq!(left.rooms[1], [&[0; 9][..], &[5]].concat());
    assert_eq!(left.rooms[2], [0, 0, 0, 0, 5]);
}

#[test]
fn names_that_are_built_in() {
    // 'z' is not said, and stays; 'c' is the first of the others
    let call = Choice::own(FIRST, &["b", "z"], "a; \"b\"; c; a;", &[0, 1, 1, 0]).dropping;
    let left = call.left();
    assert_eq!(left.answer, [0, 3, 2, 3, 0, 0]);
    assert_eq!(left.rooms[0][..20], [[11, 3, 6, 0, 0, 0, 0, 0, 0, 2], name(2, 8, 2)].concat());
    assert_eq!(left.rooms[2], [0, 1, 1, 2, 8, 9, 0, 0]);
    // the same rows, of which no symbol is said to be built in: the string's place is between its quotes
    let left = Dropping { builtins: 0, ..call }.left();
    assert_eq!(left.answer, [0, 3, 2, 2, 0, 0]);
    assert_eq!(left.rooms[2], [4, 5, 8, 9, 0, 0, 0, 0]);
}

#[test]
fn refusals() {
    let right = Choice::own(SECOND, &["a"], "f(a); return;", &[1, 0]).dropping;
    assert_eq!(right.verdict(), [0, 0, 0]);
    type Fault = fn(&mut Dropping);
    // in the order of checking: a choice of another length, a row of no kind, no edition, and all that 15 is for
    let later: [(Fault, u32); 3] = [
        (|call| call.choice.push(1), 20),
        (|call| call.set.rooms[0][0] = 0, 22),
        (|call| call.set.edition = 3, 21),
    ];
    let past: [Fault; 7] = [
        |call| call.set.counts[0] += 1,
        |call| call.set.counts[1] += 1,
        |call| call.set.counts[2] += 1,
        |call| call.set.rooms[1].truncate(2),
        |call| call.set.scratch -= 1,
        |call| call.builtins = 3,
        |call| call.builtins = ABSENT,
    ];
    let refused = |call: &Dropping, code: u32| {
        let left = call.left();
        assert_eq!(left.answer[..4], [code, 0, 0, 0]);
        assert_eq!(left.rooms[..3], call.set.rooms);
        let after = if code == 15 || code == 21 { 7 } else { 0 };
        assert_eq!(left.rooms[3], vec![after; call.set.scratch as usize]);
    };
    let mut call = right.clone();
    for (fault, code) in later {
        fault(&mut call);
        refused(&call, code);
        let mut alone = right.clone();
        fault(&mut alone);
        refused(&alone, code);
    }
    for fault in past {
        for mut call in [call.clone(), right.clone()] {
            fault(&mut call);
            refused(&call, 15);
        }
    }
    // 22 tells the rule and the row
    let mut call = right;
    call.set.rooms[0][9] = 3;
    assert_eq!(call.left().answer, [22, 0, 0, 0, 9, 0]);
}

/// Choices to look at: those that are written down, and some that are drawn.
fn choices() -> Vec<Choice> {
    let choices = Choices::new(5);
    (0..).map(|index| choices.get(index)).filter(|choice| choice.sort != Sort::Own).take(600).collect()
}

fn own() -> Vec<Choice> {
    let choices = Choices::new(5);
    (0..).map(|index| choices.get(index)).filter(Choice::is_own).step_by(7).take(900).collect()
}

#[test]
fn frames() {
    for choice in choices().into_iter().chain(own()) {
        assert!(choice.dropping.is_taken());
        let left = choice.dropping.left();
        assert_eq!(choice.dropping.taken(&left.encode()), Some(left));
    }
}

/// The tokens of each statement alone are a script of one statement.
#[test]
fn statements() {
    for script in own().iter().filter_map(Choice::script) {
        let count = script.statements().len();
        for statement in 0..count {
            let choice: Vec<u8> = (0..count).map(|place| (place == statement) as u8).collect();
            let rows = accepted(&script.shorter(&choice)).clone();
            assert_eq!(rows.nodes.last().expect("a root")[4], 1);
        }
    }
}

/// The judge's rows are those of the reading of the shorter list.
#[test]
fn readings() {
    for choice in own() {
        let (script, Dropping { builtins, choice, .. }) =
            (choice.script().expect("a script"), choice.dropping);
        let rows = packed(script.rows(), builtins, &choice);
        assert_eq!(&rows, accepted(&script.shorter(&choice)));
    }
}

/// What is dropped in two steps is dropped in one.
#[test]
fn two_steps() {
    for choice in own() {
        let (script, Dropping { builtins, choice, .. }) =
            (choice.script().expect("a script"), choice.dropping);
        let first: Vec<u8> = (0..choice.len()).map(|place| choice[place] | (place % 2) as u8).collect();
        let then: Vec<u8> =
            (0..choice.len()).filter(|place| first[*place] != 0).map(|place| choice[place]).collect();
        let rows = packed(&packed(script.rows(), builtins, &first), builtins, &then);
        assert_eq!(rows, packed(script.rows(), builtins, &choice));
    }
}

/// A packer that is wrong, as what it leaves in place of what is right.
type Wrong = fn(&Dropping, &Left) -> Left;

/// The rows that are left.
fn rows(room: &mut [u32], count: u32, width: usize) -> impl Iterator<Item = &mut [u32]> {
    room.chunks_mut(width).take(count as usize)
}

/// Freed rows are left as they were.
fn leaves_freed(call: &Dropping, right: &Left) -> Left {
    let mut left = right.clone();
    for ((room, before), (count, width)) in
        left.rooms.iter_mut().zip(&call.set.rooms).zip(right.answer[1..4].iter().zip([10, 3, 2]))
    {
        let from = width * *count as usize;
        room[from..].copy_from_slice(&before[from..]);
    }
    left
}

/// Numbers past the counts become zero.
fn zeroes_all(_: &Dropping, right: &Left) -> Left {
    let mut left = right.clone();
    for (room, (count, width)) in left.rooms.iter_mut().zip(right.answer[1..4].iter().zip([10, 3, 2])) {
        room[width * *count as usize..].fill(0);
    }
    left
}

/// Counts are the old ones.
fn old_counts(call: &Dropping, right: &Left) -> Left {
    let mut left = right.clone();
    left.answer[1..4].copy_from_slice(&call.set.counts);
    left
}

/// Symbol rows are the first of the old ones.
fn old_places(call: &Dropping, right: &Left) -> Left {
    let mut left = right.clone();
    let count = 2 * right.answer[3] as usize;
    left.rooms[2][..count].copy_from_slice(&call.set.rooms[2][..count]);
    left
}

/// Names keep their old symbols: those of statements that are names.
fn old_symbols(call: &Dropping, right: &Left) -> Left {
    let mut left = right.clone();
    let old: Vec<_> = call.set.rooms[0].chunks(10).take(call.set.counts[0] as usize).collect();
    for row in rows(&mut left.rooms[0], right.answer[1], 10).filter(|row| row[0] == 10) {
        if let Some(old) = old.iter().find(|old| old[0] == 10 && old[4..6] == row[4..6]) {
            row[3] = old[3];
        }
    }
    left
}

/// The parent of each statement is the old root.
fn old_parents(call: &Dropping, right: &Left) -> Left {
    let mut left = right.clone();
    let (root, old) = (right.answer[1].wrapping_sub(1), call.set.counts[0].wrapping_sub(1));
    rows(&mut left.rooms[0], right.answer[1], 10).filter(|row| row[9] == root).for_each(|row| row[9] = old);
    left
}

/// The root's list begins where it did.
fn old_list(call: &Dropping, right: &Left) -> Left {
    let mut left = right.clone();
    let [old, new] = [call.set.counts[0], right.answer[1]].map(|count| 10 * count as usize - 7);
    left.rooms[0][new] = call.set.rooms[0][old];
    left
}

/// Scratch is left marked.
fn marked(_: &Dropping, right: &Left) -> Left {
    let mut left = right.clone();
    left.rooms[3].fill(7);
    left
}

/// What is kept is dropped, and the other way round.
fn turned(call: &Dropping, _: &Left) -> Left {
    let choice = call.choice.iter().map(|kept| (*kept == 0) as u8).collect();
    Dropping { choice, ..call.clone() }.left()
}

/// No symbol is built in.
fn no_names(call: &Dropping, _: &Left) -> Left {
    Dropping { builtins: 0, ..call.clone() }.left()
}

const WRONG: [(&str, Wrong); 10] = [
    ("freed rows that are left", leaves_freed),
    ("numbers past the counts", zeroes_all),
    ("the old counts", old_counts),
    ("first places in dropped statements", old_places),
    ("old symbols", old_symbols),
    ("the old root as parent", old_parents),
    ("the old list of the root", old_list),
    ("scratch that is used", marked),
    ("the choice turned round", turned),
    ("built-in names that are dropped", no_names),
];

/// Each is found where it leaves something else, and often enough, by the judge's rows and by the reading of the shorter list.
#[test]
fn wrong_packers_are_found() {
    let [own, others] = [own(), choices()];
    for (name, wrong) in WRONG {
        let mut found = [0, 0];
        for (choices, found) in [&own, &others].into_iter().zip(&mut found) {
            for choice in choices.iter().filter(|choice| choice.dropping.verdict()[0] == 0) {
                let call = &choice.dropping;
                let right = call.left();
                let given = wrong(call, &right);
                let taken = call.taken(&given.encode()).expect("an answer of the right length");
                let is_found = difference(&right, &taken).is_some();
                assert_eq!(is_found, given != right, "{name}");
                if let Some(script) = choice.script() {
                    let read = call.left_of(|| accepted(&script.shorter(&call.choice)).clone());
                    assert_eq!(is_found, difference(&read, &taken).is_some(), "{name}");
                }
                *found += is_found as usize;
            }
        }
        assert!(found.iter().all(|found| *found > 20), "{name}: found in {found:?} choices");
    }
}

/// A call that is refused and changes something, or that tells something else.
#[test]
fn nothing_is_changed() {
    for choice in choices().iter().filter(|choice| choice.dropping.verdict()[0] != 0) {
        let right = choice.dropping.left();
        for number in 0..6 {
            let mut given = right.clone();
            given.answer[number] ^= 1;
            assert!(difference(&right, &given).is_some());
        }
        for room in 0..4 {
            let mut given = right.clone();
            let Some(number) = given.rooms[room].last_mut() else { continue };
            *number ^= 1;
            assert!(difference(&right, &given).is_some());
        }
    }
}

/// The judge of `batch` says of the whole and of the shorter list what `batch` has to.
#[test]
fn lists() {
    let mut judge = Judge::default();
    for choice in own() {
        let script = choice.script().expect("a script");
        for known in [script.whole(), &script.shorter(&choice.dropping.choice)] {
            let (frame, answer) = asked(known);
            assert_eq!(judge.answer(&frame), answer);
        }
    }
}

/// The fixed list shows each code, is what the program is run over, and its answers are what the program has to write.
#[test]
fn fixed() {
    let (mut frames, mut answers) = (Vec::new(), Vec::new());
    for choice in written() {
        frame::write(&mut frames, &choice.dropping.encode()).expect("memory");
        frame::write(&mut answers, &choice.dropping.left().encode()).expect("memory");
    }
    let stored = |name| {
        let file = format!("{}/../crates/drops/{name}", env!("CARGO_MANIFEST_DIR"));
        std::fs::read(file).expect("the list")
    };
    assert!(frames == stored("stdin"), "oracle/drops --fixed writes another list");
    assert!(answers == stored("stdout"), "oracle/drops --fixed writes other answers");
    for code in [0, 15, 20, 21, 22] {
        assert!(written().iter().any(|choice| choice.dropping.verdict()[0] == code), "{code}");
    }
}
