//! Request L8: each rule with the row that breaks it, their order, the rooms, and what the row sets of a run show.
use oracle::{
    builtins::Builtins,
    damages::break_rule,
    grown::{grown, own, rows},
    list::script,
    random::Random,
    rows::{ABSENT, Rows},
    rowsets::{OUTCOMES, SORTS, Sets, Sort, chosen, outcome},
    slots::places,
    terms::{FIRST, SECOND},
    verdicts::{LARGEST, RowSet},
    written::{FAULTS, faulty, named_times},
};

/// 19 rows, 13 links and 10 symbols:
/// 0 x, 1 not, 2 block with tail 1 and list 0+0, 3 function with names 0+1,
/// 4 a, 5 1, 6 b, 7 map with entries 1+2, 8 variable,
/// 9 import with names 3+2 and 5+1,
/// 10 true, 11 block with list 6+0, 12 if,
/// 13 g, 14 "s", 15 2, 16 unary, 17 call with arguments 6+2, 18 root with list 8+5.
const TEXT: &str = "fun f(x) { not x } let y = #{a: 1, b}; import p.q: r; if true {} g(\"s\", -2);";

fn sample() -> RowSet {
    RowSet::of(FIRST, &rows(FIRST, &Builtins::default(), &script(TEXT)).unwrap())
}

/// The verdict on the sample with numbers changed: of which room, row and place in the row, and to what.
fn changed(changes: &[(usize, usize, usize, u32)]) -> [u32; 3] {
    let mut set = sample();
    for (room, row, place, value) in changes {
        set.rooms[*room][[10, 3, 2][*room] * row + place] = *value;
    }
    set.verdict()
}

const NODES: usize = 0;
const LINKS: usize = 1;

#[test]
fn the_sample() {
    assert_eq!(sample().counts, [19, 13, 10]);
    assert_eq!(sample().verdict(), [0, 0, 0]);
    assert_eq!(RowSet { edition: SECOND, ..sample() }.verdict(), [0, 0, 0]);
}

#[test]
fn one_number() {
    let cases: &[(usize, usize, usize, u32, u32, u32)] = &[
        // kinds
        (NODES, 5, 0, 0, 1, 5),
        (NODES, 5, 0, 27, 1, 5),
        (NODES, 18, 0, 27, 1, 18),
        (NODES, 0, 0, ABSENT, 1, 0),
        // operators and Booleans
        (NODES, 16, 3, 2, 2, 16),
        (NODES, 10, 3, 2, 2, 10),
        (NODES, 10, 3, 0, 0, 0),
        (NODES, 16, 3, 1, 0, 0),
        // symbols: of a name, of a string, in a list of names
        (NODES, 0, 3, 10, 2, 0),
        (NODES, 0, 3, 9, 0, 0),
        (NODES, 14, 3, 10, 2, 14),
        (NODES, 3, 3, ABSENT, 2, 3),
        (LINKS, 0, 0, 10, 2, 3),
        (LINKS, 4, 0, 10, 2, 9),
        (LINKS, 5, 0, 10, 2, 9),
        (LINKS, 5, 0, 9, 0, 0),
        // lists: past the links, empty ones too, and where first and count together pass 32 digits
        (NODES, 18, 4, 6, 2, 18),
        (NODES, 18, 3, 9, 2, 18),
        (NODES, 11, 3, 14, 2, 11),
        (NODES, 11, 3, ABSENT, 2, 11),
        (NODES, 7, 4, ABSENT, 2, 7),
        (NODES, 7, 3, ABSENT - 1, 2, 7),
        (NODES, 9, 5, 13, 2, 9),
        // children: the row itself, a later one, none, in a row and in a link
        (NODES, 1, 3, 1, 3, 1),
        (NODES, 12, 4, 12, 3, 12),
        (NODES, 12, 5, 13, 3, 12),
        (NODES, 2, 5, 19, 3, 2),
        (NODES, 8, 6, ABSENT - 1, 3, 8),
        (LINKS, 1, 0, 7, 3, 7),
        (LINKS, 2, 1, 8, 3, 7),
        (LINKS, 6, 0, 17, 3, 17),
        (LINKS, 12, 0, 18, 3, 18),
        // named twice, or not at all: the first such row
        (NODES, 16, 4, 14, 4, 14),
        (NODES, 16, 4, 0, 4, 0),
        (NODES, 3, 8, 0, 4, 0),
        (NODES, 12, 5, 9, 4, 9),
        (NODES, 2, 5, ABSENT, 4, 1),
        (NODES, 12, 4, ABSENT, 4, 11),
        (LINKS, 1, 1, ABSENT, 4, 5),
        (LINKS, 2, 1, 6, 4, 6),
        (LINKS, 9, 0, 9, 4, 8),
        (LINKS, 9, 0, ABSENT, 4, 8),
        (NODES, 18, 4, 4, 4, 17),
        (NODES, 17, 5, 1, 4, 16),
        // the root's tail names a row that is named already
        (NODES, 18, 5, 4, 4, 4),
        // lists: the empty one of a row, one of names that ends too early, the second of an import
        (NODES, 2, 3, 1, 6, 2),
        (NODES, 11, 3, 13, 6, 11),
        (NODES, 3, 7, 0, 6, 7),
        (NODES, 9, 4, 1, 6, 9),
        (NODES, 9, 6, 0, 6, 11),
        (NODES, 9, 6, 2, 2, 9),
        // unused numbers of rows and links
        (NODES, 5, 3, 1, 8, 5),
        (NODES, 1, 4, ABSENT, 8, 1),
        (NODES, 8, 7, 1, 8, 8),
        (NODES, 9, 7, 1, 8, 9),
        (NODES, 18, 8, 1, 8, 18),
        (LINKS, 1, 2, 1, 8, 7),
        (LINKS, 6, 1, 1, 8, 17),
        (LINKS, 6, 2, 1, 8, 17),
        (LINKS, 12, 1, ABSENT, 8, 18),
        // parents
        (NODES, 0, 9, 2, 9, 0),
        (NODES, 15, 9, ABSENT, 9, 15),
        (NODES, 18, 9, 18, 9, 18),
        // spans, and the places of names
        (NODES, 0, 1, ABSENT, 0, 0),
        (NODES, 18, 2, 5, 0, 0),
        (NODES, 0, 4, ABSENT, 0, 0),
        (LINKS, 3, 2, ABSENT, 0, 0),
        (2, 0, 0, ABSENT, 0, 0),
    ];
    for (room, row, place, value, rule, at) in cases {
        let code = if *rule == 0 { 0 } else { 22 };
        let verdict = changed(&[(*room, *row, *place, *value)]);
        assert_eq!(verdict, [code, *rule, *at], "room {room}, row {row}, number {place} is {value}");
    }
}

/// What no single number comes to.
#[test]
fn more_numbers() {
    // the root is no Block, and its statements are entries
    let map = [(NODES, 18, 0, 17), (NODES, 18, 5, 0)];
    let lacks = [8, 9, 10, 11, 12].map(|link| (LINKS, link, 1, ABSENT));
    assert_eq!(changed(&[&map[..], &lacks].concat()), [22, 5, 18]);
    // its last statement is its tail, and a link is left over
    assert_eq!(changed(&[(NODES, 18, 4, 4), (NODES, 18, 5, 17)]), [22, 5, 18]);
    // a key that is absent, and a condition, whose rows stand where they could be
    assert_eq!(changed(&[(LINKS, 2, 0, ABSENT), (LINKS, 2, 1, 6)]), [22, 7, 7]);
    assert_eq!(changed(&[(NODES, 12, 3, ABSENT), (NODES, 12, 5, 10)]), [22, 7, 12]);
    // a statement that is the tail of a block before
    assert_eq!(changed(&[(NODES, 11, 5, 9), (LINKS, 10, 0, ABSENT), (NODES, 9, 9, 11)]), [22, 7, 18]);
    // children in another order, and their parents
    assert_eq!(changed(&[(LINKS, 9, 0, 9), (LINKS, 10, 0, 8)]), [0, 0, 0]);
    assert_eq!(changed(&[(NODES, 1, 3, ABSENT), (NODES, 2, 5, 0)]), [22, 4, 1]);
    assert_eq!(changed(&[(NODES, 16, 4, 14), (LINKS, 6, 0, 15)]), [22, 9, 14]);
    assert_eq!(
        changed(&[(NODES, 16, 4, 14), (LINKS, 6, 0, 15), (NODES, 14, 9, 16), (NODES, 15, 9, 17)]),
        [0, 0, 0]
    );
    // two lists in the other order
    assert_eq!(changed(&[(NODES, 9, 3, 4), (NODES, 9, 5, 3)]), [22, 6, 9]);
}

#[test]
fn links_left_over() {
    let mut set = sample();
    set.counts[1] += 1;
    set.rooms[1].extend([0, 0, 0]);
    assert_eq!(set.verdict(), [15, 0, 0]);
    set.scratch += 2;
    assert_eq!(set.verdict(), [22, 6, 18]);
    // a start that is wrong comes first
    set.rooms[0][20 + 3] = 3;
    assert_eq!(set.verdict(), [22, 6, 2]);
}

#[test]
fn returns() {
    let read = |edition| {
        rows(SECOND, &Builtins::default(), &script("{ return } a;")).map(|rows| RowSet::of(edition, &rows))
    };
    assert_eq!(read(SECOND).unwrap().verdict(), [0, 0, 0]);
    assert_eq!(read(FIRST).unwrap().verdict(), [22, 7, 0]);
    assert_eq!(read(3).unwrap().verdict(), [21, 0, 0]);
}

#[test]
fn no_rows() {
    let none = RowSet::of(FIRST, &Rows::default());
    assert_eq!(none.answer(), [22, 5, 0]);
    assert_eq!(RowSet { scratch: 3, ..none.clone() }.answer(), [22, 5, 0, 0, 0, 0]);
    let links = Rows { links: vec![[ABSENT; 3]], ..Rows::default() };
    assert_eq!(RowSet::of(SECOND, &links).verdict(), [22, 5, 0]);
    let root = rows(FIRST, &Builtins::default(), &script("")).unwrap();
    assert_eq!(RowSet::of(FIRST, &root).answer(), [0, 0, 0, 0]);
    assert_eq!(RowSet { counts: [0, 0, 0], ..RowSet::of(FIRST, &root) }.verdict(), [22, 5, 0]);
}

#[test]
fn rooms() {
    let set = sample();
    assert_eq!(set.scratch, 19 + 26);
    let short = |change: &dyn Fn(&mut RowSet)| {
        let mut set = RowSet { edition: 0, ..set.clone() };
        change(&mut set);
        let answer = set.answer();
        assert_eq!(answer[..3], [15, 0, 0]);
        assert!(answer[3..].iter().all(|number| *number == 7));
        assert_eq!(answer.len(), 3 + set.scratch as usize);
    };
    for room in 0..3 {
        short(&|set| set.rooms[room].truncate(set.rooms[room].len() - 1));
        short(&|set| set.counts[room] += 1);
        for count in [ABSENT, 1 << 31, 429_496_730, 1_431_655_766] {
            short(&|set| set.counts[room] = count);
        }
    }
    short(&|set| set.scratch -= 1);
    short(&|set| set.scratch = 0);

    let mut more = set.clone();
    more.rooms.iter_mut().for_each(|room| room.extend([ABSENT; 25]));
    more.scratch += 2;
    assert_eq!(more.answer(), vec![0; 3 + 47]);
    let unnamed = RowSet { edition: 0, ..more.clone() }.answer();
    assert_eq!((&unnamed[..3], &unnamed[3..]), (&[21, 0, 0][..], &[7; 47][..]));
    more.rooms[0][0] = 0;
    let refused = more.answer();
    assert_eq!((&refused[..3], &refused[3..]), (&[22, 1, 0][..], &[0; 47][..]));
    // a symbol less, and a row less
    more = set.clone();
    more.counts[2] -= 1;
    assert_eq!(more.verdict(), [22, 2, 14]);
    more = set.clone();
    more.counts[0] -= 1;
    assert_eq!(more.verdict(), [22, 4, 3]);
    more = set;
    more.counts[1] -= 1;
    assert_eq!(more.verdict(), [22, 2, 18]);
}

/// 15, 21, and then the rules by their numbers, wherever they are broken.
#[test]
fn order() {
    let rows = [10, 9, 8, 4, 11, 3, 2, 1, 0];
    for edition in [FIRST, SECOND] {
        for faults in 0..1 << FAULTS {
            let expected = match (0..FAULTS).find(|fault| faults & 1 << fault != 0) {
                None => [0, 0, 0],
                Some(0) => [15, 0, 0],
                Some(1) => [21, 0, 0],
                Some(fault) => [22, fault as u32 - 1, rows[fault - 2]],
            };
            assert_eq!(faulty(edition, faults).verdict(), expected, "faults {faults:b}");
        }
    }
}

#[test]
fn named_many_times() {
    for times in [0, 2, 255, 256, 257, 390, 391, 65_536, 65_537] {
        assert_eq!(named_times(times).verdict(), [22, 4, 0], "{times} times");
    }
    assert_eq!(named_times(1).verdict(), [0, 0, 0]);
}

/// How often a walk from the last row meets each.
fn met(rows: &Rows) -> Vec<u32> {
    let mut met = vec![0; rows.nodes.len()];
    let names: Vec<_> = places(rows).into_iter().filter(|place| place.names_a_row()).collect();
    let mut open = vec![rows.nodes.len() - 1];
    while let Some(row) = open.pop() {
        met[row] += 1;
        let children = names.iter().filter(|place| place.row == row).map(|place| place.get(rows));
        open.extend(children.filter(|child| *child != ABSENT).map(|child| child as usize));
    }
    met
}

/// Rows that are made to be right are, and a walk meets each of them once. Rows with a rule broken on purpose break that rule.
#[test]
fn right_and_broken() {
    oracle::with_large_stack(|| {
        let mut broken = [0; 10];
        for index in 0..4_000 {
            let random = &mut Random::of(5, index);
            let (edition, rows) = if index % 2 == 0 { own(random) } else { grown(random) };
            assert_eq!(RowSet::of(edition, &rows).verdict(), [0, 0, 0]);
            assert!(met(&rows).iter().all(|times| *times == 1));
            for (rule, count) in broken.iter_mut().enumerate().skip(1) {
                let mut wrong = rows.clone();
                break_rule(rule, edition, &mut wrong, random);
                let verdict = RowSet::of(edition, &wrong).verdict();
                assert!(
                    verdict == [0, 0, 0] || verdict[..2] == [22, rule as u32],
                    "rule {rule}: {verdict:?}"
                );
                *count += (verdict[0] == 22) as u32;
            }
        }
        assert!(broken.iter().skip(1).all(|count| *count > 2_500), "{broken:?}");
    });
}

#[test]
fn frames() {
    let set = sample();
    let frame = set.encode();
    assert_eq!(frame.len(), 4 * (8 + 190 + 39 + 20));
    assert_eq!(frame[..16], *b"\x01\0\0\0\x13\0\0\0\x0D\0\0\0\x0A\0\0\0");
    assert_eq!(frame[16..32], *b"\xBE\0\0\0\x27\0\0\0\x14\0\0\0\x2D\0\0\0");
    assert_eq!(RowSet::decode(&frame), Some(set.clone()));
    for broken in [&frame[..0], &frame[..31], &frame[..frame.len() - 1], &[&frame[..], &[0]].concat()] {
        assert_eq!(RowSet::decode(broken), None);
    }
    for room in 0..4 {
        let mut large = set.clone();
        match large.rooms.get_mut(room) {
            Some(numbers) => numbers.resize(LARGEST[room] as usize + 1, 0),
            None => large.scratch = LARGEST[room] + 1,
        }
        assert_eq!(RowSet::decode(&large.encode()), None);
    }
    assert_eq!(set.rows().map(|rows| RowSet::of(FIRST, &rows)), Some(set));
}

/// The sets of a run are always the same, fit a frame, and meet each outcome often.
#[test]
fn a_run() {
    oracle::with_large_stack(|| {
        let (sets, same) = (Sets::new(3), Sets::new(3));
        let (mut counts, mut large, mut second) = ([[0; OUTCOMES]; SORTS.len()], 0, [0; OUTCOMES]);
        for index in 0..30_000 {
            let (sort, set) = sets.get(index);
            assert!(index % 10 != 0 || same.get(index) == (sort, set.clone()));
            assert_eq!(RowSet::decode(&set.encode()).as_ref(), Some(&set));
            let outcome = outcome(set.verdict());
            counts[sort as usize][outcome] += 1;
            second[outcome] += (set.edition == SECOND) as u32;
            large += (set.rooms[0].len() > 1_000) as u32;
            if outcome == 0 {
                assert!(met(&set.rows().unwrap()).iter().all(|times| *times == 1));
            }
        }
        let total = |outcome: usize| counts.iter().map(|counts| counts[outcome]).sum::<u32>();
        assert!((0..OUTCOMES).all(|outcome| total(outcome) > 250), "{counts:?}");
        assert!((0..OUTCOMES).all(|outcome| outcome == 2 || second[outcome] > 100), "{second:?}");
        let all = [Sort::Damaged, Sort::Hostile, Sort::Sizes];
        assert!(all.iter().all(|sort| counts[*sort as usize].iter().all(|count| *count > 0)), "{counts:?}");
        assert!(large > 100, "{large}");
    });
}

#[test]
fn the_fixed_list() {
    oracle::with_large_stack(|| {
        let sets = chosen();
        assert!((250..400).contains(&sets.len()), "{}", sets.len());
        for sort in SORTS {
            assert!(sets.iter().any(|set| set.0 == sort));
        }
        for wanted in 0..OUTCOMES {
            for edition in [FIRST, SECOND] {
                let has =
                    |(_, set): &(Sort, RowSet)| set.edition == edition && outcome(set.verdict()) == wanted;
                assert!(wanted == 2 || sets.iter().any(has), "outcome {wanted} in edition {edition}");
            }
        }
    });
}
