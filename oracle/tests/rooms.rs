//! Request L6: the corners of rooms of any size, as the oracle answers them, and the rows that a reading asks for.
use kaori::recorder::{Asked, Row};
use oracle::{
    case::Case,
    drawn::Cases,
    list::script,
    rooms::{Judge, Known, LARGEST, Lent, Rooms},
    rows::Outcome,
    tight::{self, Comes, LADDERS, rooms_of},
};

/// The answer's lines, as numbers.
fn answer(text: &str, limit: u32, rooms: Rooms) -> Vec<Vec<u32>> {
    let lent =
        Lent { is_guard: false, edition: None, names: None, limit, rooms, input: script(text).encode() };
    let answer = String::from_utf8(Judge::default().answer(&lent.encode())).unwrap();
    let numbers = |line: &str| line.split_whitespace().map(|number| number.parse().unwrap()).collect();
    answer.lines().map(numbers).collect()
}

fn asked(text: &str, limit: u32) -> Vec<Asked> {
    Known::of(script(text), limit).asked().to_vec()
}

#[test]
fn corners() {
    for (text, limit, steps) in LADDERS {
        let case = script(text);
        for (rows, comes) in *steps {
            let rooms = rooms_of(&case, *rows);
            let answer = answer(text, *limit, rooms);
            let refused = |code, at: u32, expected| {
                let token = case.tokens[at as usize];
                vec![code, 0, 0, 0, at, token.start, token.end, expected]
            };
            match *comes {
                Comes::Accepted => assert_eq!((answer[0][0], answer[0][7]), (0, 255), "{text} {rows:?}"),
                Comes::Short(at) => assert_eq!(answer[0], refused(4, at, 255), "{text} {rows:?}"),
                Comes::Refused(code, at, expected) => {
                    assert_eq!(answer[0], refused(code, at, expected), "{text} {rows:?}");
                }
            }
            for (size, room) in rooms.iter().zip(&answer[1..]) {
                assert_eq!(*size as usize, room.len());
                assert!(*comes == Comes::Accepted || room.iter().all(|number| *number == 0));
            }
        }
    }
}

/// A row more each time, up to all: each step is refused at the next row's token, and the last is not.
#[test]
fn every_row_of_the_corners() {
    for (text, limit, _) in LADDERS {
        let known = Known::of(script(text), *limit);
        let rows = known.asked();
        for (count, next) in rows.iter().enumerate() {
            let given = answer(text, *limit, known.fitting(count));
            assert_eq!([given[0][0], given[0][4]], [4, next.at as u32], "{text} with {count} rows");
        }
        let [exact, ample] =
            [known.fitting(rows.len()), known.ample()].map(|rooms| answer(text, *limit, rooms));
        assert_eq!(exact[0], ample[0], "{text}");
        for (exact, ample) in exact[1..].iter().zip(&ample[1..]) {
            assert!(ample.starts_with(exact), "{text}");
            assert!(ample[exact.len()..].iter().all(|number| *number == 0), "{text}");
        }
    }
}

#[test]
fn the_rows_that_are_asked_for() {
    use Row::*;
    let row = |(row, at)| Asked { row, at };
    let import = [(Symbol, 1), (Symbol, 3), (Symbol, 5), (Link, 6), (Link, 6), (Link, 6), (Node, 6)];
    assert_eq!(asked("import a.b: c;", 64)[..7], import.map(row));
    let function =
        [(Symbol, 1), (Symbol, 3), (Node, 7), (Node, 8), (Link, 8), (Node, 8), (Link, 8), (Node, 8)];
    assert_eq!(asked("fun f(x) {x}", 64), function.map(row));
    assert_eq!(asked("a; a;", 64).iter().filter(|asked| asked.row == Symbol).count(), 1);
    assert_eq!(asked("let \"s\" = 1;", 64), []);
}

/// A 4 at the door and one in reading may have the same numbers; the rooms tell them apart. The door's comes before 5 to
/// 7 and after 1 to 3.
#[test]
fn at_the_door() {
    let numbers = vec![4, 0, 0, 0, 0, 0, 0, 255];
    assert_eq!(answer("", 64, [9, 1, 1, 2]), [numbers.clone(), vec![7; 9], vec![7], vec![7], vec![7; 2]]);
    assert_eq!(answer("", 64, [9, 1, 1, 3]), [numbers, vec![0; 9], vec![0], vec![0], vec![0; 3]]);
    assert_eq!(answer("a;", 0, [0, 0, 0, 8])[0], [3, 0, 0, 0, 0, 0, 0, 255]);
    assert_eq!(answer("a;", 64, [0, 0, 0, 8])[0], [4, 0, 0, 0, 0, 0, 0, 255]);

    let mut case = script("a;");
    case.tokens[1].kind = 0;
    let known = Known::of(case, 64);
    assert!(known.answer([1, 0, 0, 8]).starts_with(" 4 0 0 0 0 0 0 255\n 7\n"));
    assert!(known.answer([1, 0, 0, 9]).starts_with(" 6 0 0 0 1 1 2 255\n 7\n"));
}

/// Numbers left over are no row, and are zero afterwards.
#[test]
fn numbers_left_over() {
    let exact = answer("a;", 64, [20, 3, 2, 9]);
    let mut more = answer("a;", 64, [29, 5, 3, 11]);
    assert_eq!(exact[0], [0, 2, 1, 1, 0, 0, 0, 255]);
    for (room, exact) in more.iter_mut().zip(&exact) {
        assert!(room[exact.len()..].iter().all(|number| *number == 0));
        room.truncate(exact.len());
    }
    assert_eq!(exact, more);
    assert_eq!(answer("a;", 64, [19, 3, 2, 9])[0], [4, 0, 0, 0, 2, 2, 2, 255]);
    assert_eq!(answer("a;", 64, [20, 2, 2, 9])[0], [4, 0, 0, 0, 2, 2, 2, 255]);
    assert_eq!(answer("a;", 64, [20, 3, 1, 9])[0], [4, 0, 0, 0, 0, 0, 1, 255]);
}

#[test]
fn frames() {
    let lent = Lent {
        is_guard: false,
        edition: None,
        names: None,
        limit: 64,
        rooms: [20, 3, 2, 9],
        input: script("a;").encode(),
    };
    let frame = lent.encode();
    assert_eq!(frame[..22], *b"RM\x40\0\0\0\x14\0\0\0\x03\0\0\0\x02\0\0\0\x09\0\0\0");
    assert_eq!(Lent::decode(&frame), Some(lent.clone()));
    assert_eq!(Lent::decode(&frame[..21]), None);
    assert_eq!(Lent::decode(&lent.input), None);
    let mut judge = Judge::default();
    let told = " 0 2 1 1 0 0 0 255\n 10 0 1 0 0 1 0 0 0 1 20 0 0 0 1 4294967295 0 0 0 4294967295\n 0 0 0\n 0 1\n \
                0 0 0 0 0 0 0 0 0\n";
    assert_eq!(judge.answer(&frame), told.as_bytes());
    assert_eq!(judge.answer(&frame[..22]), b"bad input\n");
    assert_eq!(judge.answer(&frame[..frame.len() - 1]), b"bad input\n");
    let larger = [5_130, 1_539, 1_026, u32::MAX];
    assert_eq!(Lent::decode(&Lent { rooms: larger, ..lent }.encode()).unwrap().rooms, LARGEST);
    assert_eq!(
        tight::frames(1).take(3_000).collect::<Vec<_>>(),
        tight::frames(1).take(3_000).collect::<Vec<_>>()
    );
}

/// With a row for each token no row is lacking, and in the exact need neither. That rows asked for are as many as rows
/// written is asserted in `judge::record`. And no input of `rows` is taken for one with rooms.
#[test]
fn needs() {
    oracle::with_large_stack(|| {
        let cases = Cases::new(3);
        let (mut accepted, mut refused) = (0, 0);
        for index in 0..6_000 {
            let input = cases.get(index);
            assert_eq!(Lent::decode(&input), None);
            let Some(case) = Case::decode(&input) else { continue };
            let known = Known::of(case, 64);
            assert_eq!(known.lacking(known.ample()), None);
            assert_eq!(known.lacking(known.fitting(known.asked().len())), None);
            match known.outcome() {
                Outcome::Accepted(_) => accepted += 1,
                Outcome::Refused(_) => refused += 1,
            }
        }
        assert!(accepted > 1_000 && refused > 1_000, "{accepted} accepted, {refused} refused");
    });
}
