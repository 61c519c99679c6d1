//! Choices that are written down (request L12), which are the fixed list.
use crate::{
    choices::{Choice, Sort},
    drops::Dropping,
    rows::{ABSENT, Rows},
    slots::{adopt, row},
    terms::{FIRST, SECOND},
};

/// A script of each kind of row, its edition, built-in names and some choices of it.
type Kept = (u32, &'static [&'static str], &'static str, &'static [&'static [u8]]);

const EVERY: &str = "import a.b: c, d; fun f(x, y) { fun g() { return x } -y } let m = #{\"a\": x, b, c: |q| { #{q} }}; f(\"s\", m.b) = 1; \
                     if a and b or not c { break } else if nil { continue; } else {} while true { const z = \"a\"; ref w = z }";

#[rustfmt::skip]
const KEPT: &[Kept] = &[
    // everything, nothing, and a script without statements
    (FIRST, &[], "a; b;", &[&[1, 1], &[0, 0]]),
    (SECOND, &[], "", &[&[]]),
    // a symbol's first place is in a dropped statement; any number but 0 keeps
    (FIRST, &[], "a; b; a;", &[&[0, 1, 1], &[1, 0, 1], &[0, 255, 0], &[0, 0, 128]]),
    // `;` behind a brace, parentheses behind a statement's row
    (FIRST, &[], "{}; {} ((a)); {b};", &[&[0, 1, 1, 0], &[1, 0, 0, 1], &[0, 0, 1, 0]]),
    // built-in names stay, said or not, and keep their rows
    (FIRST, &["b", "z", "a"], "a; b; c; \"b\"; c;", &[&[0, 0, 0, 0, 0], &[1, 0, 0, 0, 1], &[0, 1, 1, 1, 0], &[0, 0, 0, 1, 1]]),
    (SECOND, &["x"], EVERY, &[&[0, 1, 0, 0, 1, 0], &[1, 1, 1, 1, 1, 1]]),
    // strings are symbols, and their place is between the quotes
    (FIRST, &[], "\"\"; \"ab\"; ab; \"ab\";", &[&[0, 0, 1, 1], &[0, 1, 1, 0], &[1, 0, 0, 1]]),
    // each kind of row, alone and with others
    (FIRST, &[], EVERY, &[&[1, 0, 0, 0, 0, 0], &[0, 1, 0, 0, 0, 0], &[0, 0, 1, 0, 0, 0], &[0, 0, 0, 1, 0, 0], &[0, 0, 0, 0, 1, 0], &[0, 0, 0, 0, 0, 1], &[1, 0, 1, 0, 1, 0]]),
    // edition 2
    (SECOND, &[], "fun f() { return } return; return a; not (a)(b);", &[&[0, 1, 0, 0], &[1, 0, 0, 1], &[0, 0, 1, 1]]),
];

/// The fixed list.
pub fn written() -> Vec<Choice> {
    let mut choices = Vec::new();
    for (edition, names, text, kept) in KEPT {
        choices.extend(kept.iter().map(|choice| Choice::own(*edition, names, text, choice)));
    }
    choices.extend(asked());
    choices.extend(foreign());
    choices
}

/// Rows of a script, and each thing that a call can be refused for; numbers left over, which stay.
fn asked() -> Vec<Choice> {
    let right = Choice::own(FIRST, &["b"], "f(a, b); #{a}; b;", &[0, 1, 1]).dropping;
    let mut calls = Vec::new();
    let mut add = |change: &dyn Fn(&mut Dropping)| {
        let mut call = right.clone();
        change(&mut call);
        calls.push(Choice::other(Sort::Asked, call));
    };
    // rooms with numbers left over
    add(&|call| {
        call.set.rooms.iter_mut().for_each(|room| room.extend([9, ABSENT, 1, 20]));
        call.set.scratch += 3;
    });
    // 15: each count, the built-in names, scratch; and it is before 21
    for count in 0..3 {
        add(&|call| call.set.counts[count] += 1);
        add(&|call| call.set.counts[count] = ABSENT);
    }
    add(&|call| call.builtins = call.set.counts[2] + 1);
    add(&|call| call.set.scratch -= 1);
    add(&|call| (call.set.scratch, call.set.edition) = (0, 3));
    // 21, before 22 and 20
    add(&|call| call.set.edition = 0);
    add(&|call| (call.set.edition, call.set.rooms[0][0], call.choice) = (3, 27, Vec::new()));
    // 22, before 20
    add(&|call| call.set.rooms[0][0] = 0);
    add(&|call| (call.set.rooms[0][19], call.choice) = (0, vec![1]));
    // 20: a number less, a number more, none
    add(&|call| call.choice.truncate(2));
    add(&|call| call.choice.push(1));
    add(&|call| call.choice.clear());
    // all symbols as built-in names, and none
    add(&|call| call.builtins = call.set.counts[2]);
    add(&|call| call.builtins = 0);
    calls
}

/// Rows that no reader writes.
fn foreign() -> Vec<Choice> {
    let call = |edition, mut rows: Rows, builtins, choice: &[u8]| {
        adopt(&mut rows);
        Choice::other(Sort::Grown, Dropping::of(edition, &rows, builtins, choice))
    };
    // statements whose rows lie between each other's: 4 has 0 and 2, 5 has 1 and 3
    let name = |symbol: u32| row(10, &[symbol, 10 + symbol, 20 + symbol]);
    let mixed = Rows {
        nodes: vec![
            name(3),
            name(2),
            name(1),
            name(2),
            row(2, &[2, 0]),
            row(3, &[1, 3]),
            row(20, &[0, 2, ABSENT]),
        ],
        links: vec![[4, 0, 0], [5, 0, 0]],
        symbols: vec![[1, 2]; 5],
    };
    // a root that lists its rows from the last to the first
    let falling = Rows {
        nodes: vec![
            row(26, &[0, 2, 2, 1]),
            row(14, &[]),
            row(15, &[1, 3, 0]),
            name(0),
            row(20, &[3, 3, ABSENT]),
        ],
        links: vec![[0, 5, 6], [1, 7, 8], [2, 9, 9], [3, 0, 0], [2, 0, 0], [0, 0, 0]],
        symbols: vec![[5, 6]; 4],
    };
    // strings whose spans have no room for quotes
    let mut spans = Rows {
        nodes: vec![row(11, &[0]), row(11, &[1]), row(11, &[0]), row(20, &[0, 3, ABSENT])],
        links: vec![[0, 0, 0], [1, 0, 0], [2, 0, 0]],
        symbols: vec![[0, 0]; 2],
    };
    spans.nodes[0][1..3].copy_from_slice(&[ABSENT, 0]);
    spans.nodes[1][1..3].copy_from_slice(&[ABSENT - 1, 1]);
    spans.nodes[2][1..3].copy_from_slice(&[4, 9]);
    // a map with absent values, a `return` without a child, a root with a span
    let mut absent = Rows {
        nodes: vec![
            name(1),
            name(1),
            name(0),
            row(17, &[0, 2]),
            row(23, &[ABSENT]),
            row(20, &[2, 2, ABSENT]),
        ],
        links: vec![[0, ABSENT, 0], [1, 2, 0], [3, 0, 0], [4, 0, 0]],
        symbols: vec![[0, 1]; 3],
    };
    absent.nodes[5][1..3].copy_from_slice(&[3, ABSENT]);
    vec![
        call(FIRST, mixed.clone(), 0, &[1, 0]),
        call(FIRST, mixed.clone(), 0, &[0, 1]),
        call(FIRST, mixed, 2, &[1, 1]),
        call(FIRST, falling.clone(), 0, &[1, 0, 1]),
        call(SECOND, falling.clone(), 1, &[0, 1, 0]),
        call(SECOND, falling, 0, &[1, 1, 1]),
        call(FIRST, spans.clone(), 0, &[1, 1, 1]),
        call(FIRST, spans, 0, &[0, 1, 1]),
        call(SECOND, absent.clone(), 0, &[1, 1]),
        call(SECOND, absent.clone(), 3, &[0, 1]),
        call(FIRST, absent, 0, &[1, 0]),
        call(FIRST, Rows { nodes: vec![row(20, &[0, 0, ABSENT])], ..Rows::default() }, 0, &[]),
        call(FIRST, Rows::default(), 0, &[]),
    ]
}
