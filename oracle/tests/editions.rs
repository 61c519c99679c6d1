//! Request L14: the two editions as the oracle answers them, and in which order the door refuses.
use oracle::{
    beside::{FAULTS, faulty, right_and_wrong},
    builtins::Builtins,
    case::Case,
    corners::EDITIONS,
    drawn::Cases,
    kinds::spelling,
    list::script,
    random::Random,
    rooms::{Judge, Known, Lent},
    rows::{Outcome, Rows},
    terms::{FIRST, SECOND, Terms},
};

const ABSENT: u32 = u32::MAX;

fn outcome(edition: u32, text: &str, limit: u32) -> Outcome {
    Known::of(script(text), Terms { edition, limit }).outcome().clone()
}

fn rows(edition: u32, text: &str) -> Rows {
    match outcome(edition, text, 64) {
        Outcome::Accepted(rows) => rows,
        Outcome::Refused(refusal) => panic!("{text}: {refusal:?}"),
    }
}

/// Code, token and required kind.
fn refused(edition: u32, text: &str, limit: u32) -> [u32; 3] {
    match outcome(edition, text, limit) {
        Outcome::Accepted(_) => [0; 3],
        Outcome::Refused(refusal) => [refusal.code, refusal.at, refusal.expected],
    }
}

/// Kind, span and first three numbers of a row, and its parent.
fn row(edition: u32, text: &str, number: usize) -> [u32; 7] {
    let [kind, start, end, a, b, c, _, _, _, parent] = rows(edition, text).nodes[number];
    [kind, start, end, a, b, c, parent]
}

#[test]
fn denial() {
    // from the `not` to the operand's end, as a sign; and the operand ends before an operator
    assert_eq!(row(SECOND, "not (a);", 1), [4, 0, 6, 0, 0, 0, 2]);
    assert_eq!(row(FIRST, "not (a);", 1), [4, 0, 3, 0, 0, 0, 2]);
    assert_eq!(row(SECOND, "-(a);", 1)[..3], [5, 0, 3]);
    assert_eq!(row(SECOND, "not a and b;", 1), [4, 0, 5, 0, 0, 0, 3]);
    assert_eq!(row(SECOND, "not a and b;", 3), [2, 0, 11, 1, 2, 0, 4]);
    assert_eq!(row(FIRST, "not a and b;", 3), [4, 0, 3, 2, 0, 0, 4]);
    assert_eq!(row(SECOND, "not a.b;", 2), [4, 0, 7, 1, 0, 0, 3]);
    assert_eq!(row(SECOND, "- not a * b;", 2), [5, 0, 7, 0, 1, 0, 4]);
    // depth as of a sign
    assert_eq!(refused(SECOND, "not a;", 1), [11, 0, 255]);
    assert_eq!(refused(SECOND, "-a;", 1), [11, 0, 255]);
    assert_eq!(refused(FIRST, "not a;", 1), [11, 1, 255]);
    assert_eq!(refused(SECOND, "not a;", 2), [0; 3]);
    assert_eq!(refused(SECOND, "not not a;", 2), [11, 1, 255]);
    assert_eq!(refused(SECOND, "not;", 64), [9, 1, 255]);
}

#[test]
fn bare_return() {
    assert_eq!(row(SECOND, "return;", 0), [23, 0, 6, ABSENT, 0, 0, 1]);
    assert_eq!(refused(FIRST, "return;", 64), [9, 1, 255]);
    assert_eq!(row(SECOND, "{ return }", 1), [20, 0, 10, 0, 0, 0, 2]);
    assert_eq!(row(SECOND, "return (a);", 1), [23, 0, 9, 0, 0, 0, 2]);
    // it opens nothing
    assert_eq!(refused(SECOND, "{return}", 1), [0; 3]);
    assert_eq!(refused(FIRST, "{return}", 1), [11, 2, 255]);
    // nothing else may stand there
    for (text, at) in [("return", 1), ("return )", 1), ("return return;", 1), ("return }", 1)] {
        assert_eq!(refused(SECOND, text, 64), [9, at, 255], "{text}");
    }
}

#[test]
fn chains() {
    // the callee is the inner row, and a call's span begins at its own `(`
    assert_eq!(row(SECOND, "(a)(b);", 2), [15, 3, 6, 0, 0, 1, 3]);
    assert_eq!(row(SECOND, "((a).b)(c);", 3)[..4], [15, 7, 10, 1]);
    assert_eq!(row(SECOND, "(a + b).c;", 3)[..4], [16, 7, 9, 2]);
    assert_eq!(row(SECOND, "not (a)(b);", 3), [4, 0, 10, 2, 0, 0, 4]);
    // after nothing else
    for text in ["1(a);", "\"s\"(b);", "#{}(b);", "x = {}(b);", "|x| {}(b);", "nil(b);"] {
        let at = script(text).tokens.iter().rposition(|token| spelling(token.kind) == Some("(")).unwrap();
        assert_eq!(refused(SECOND, text, 64), [8, at as u32, 41], "{text}");
    }
    assert_eq!(refused(SECOND, "(a)(", 64), [8, 4, 18]);
    assert_eq!(refused(SECOND, "(a).;", 64), [8, 4, 43]);
}

/// What edition 1 accepts edition 2 accepts, no deeper; and without a `not` it has the same rows.
#[test]
fn what_edition_1_accepts() {
    oracle::with_large_stack(|| {
        let cases = [FIRST, SECOND].map(|edition| Cases::of(edition, 3));
        let drawn = cases.iter().flat_map(|cases| (0..20_000).map(|index| cases.get(index)));
        let written = EDITIONS.iter().map(|text| script(text).encode());
        let mut accepted = [0, 0];
        for case in written.chain(drawn).filter_map(|input| Case::decode(&input)) {
            let limit = 1 + Random::of(9, case.tokens.len() as u64).below(64) as u32;
            let comes = |edition| Known::of(case.clone(), Terms { edition, limit }).outcome().clone();
            let Outcome::Accepted(first) = comes(FIRST) else { continue };
            let Outcome::Accepted(second) = comes(SECOND) else { panic!("{case:?}") };
            let denies = case.tokens.iter().any(|token| spelling(token.kind) == Some("not"));
            assert!(denies || first == second, "{case:?}");
            accepted[denies as usize] += 1;
        }
        assert!(accepted.iter().all(|count| *count > 500), "{accepted:?}");
    });
}

/// 1, 2, 3, 21, 4, 18, 4, 5, 6, 7, and then the reading; a text that is too long does not go into a frame.
#[test]
fn order_of_refusals() {
    let order = [1, 3, 4, 4, 5, 6, 7, 8]; // of the faults, without names and edition
    for (is_wrong, names) in right_and_wrong().into_iter().enumerate() {
        for faults in 0..1 << FAULTS {
            for (edition, is_named) in [(1, true), (2, true), (0, false), (3, false), (u32::MAX, false)] {
                let lent = Lent { edition: Some(edition), ..faulty(&names, faults) };
                let answer = String::from_utf8(Judge::default().answer(&lent.encode())).unwrap();
                let code = answer.split_whitespace().next().unwrap().parse::<u32>().unwrap();
                let at = |fault: usize| (faults & 1 << fault != 0).then_some(order[fault]);
                let found = (at(0).or(at(1)))
                    .or((!is_named).then_some(21))
                    .or(at(2))
                    .or((is_wrong == 1).then_some(18))
                    .or((3..FAULTS).find_map(at));
                assert_eq!(code, found.unwrap_or(0), "faults {faults:b}, edition {edition}");
            }
        }
    }
}

/// Frames with the other marks are of edition 1.
#[test]
fn frames_without_an_edition() {
    let known = Known::beside(Builtins::default(), script("return;"), Terms { edition: FIRST, limit: 64 });
    let lent = known.lent_all(known.ample());
    let answer = |lent: &Lent| Judge::default().answer(&lent.encode());
    let bare = Lent { edition: None, ..lent.clone() };
    assert_eq!(answer(&lent), answer(&bare));
    assert_eq!(answer(&lent), answer(&Lent { names: None, ..bare }));
    assert_ne!(answer(&lent), answer(&Lent { edition: Some(SECOND), ..lent.clone() }));
    assert_eq!(Lent::decode(&lent.encode()), Some(lent));
}
