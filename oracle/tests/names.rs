//! Request L10: built-in names beside a script, as the oracle answers them, and in which order the door refuses.
use oracle::{
    beside::{self, FAULTS, RIGHT, for_case},
    builtins::Builtins,
    case::Case,
    drawn::Cases,
    list::script,
    random::Random,
    rooms::{Judge, Known, Lent, Rooms},
    rows::{Outcome, Rows},
};

fn names(text: &[u8], rows: &[u32]) -> Builtins {
    Builtins { text: text.into(), rows: rows.into() }
}

/// The answer's lines, as numbers.
fn lines(lent: &Lent) -> Vec<Vec<u32>> {
    let answer = String::from_utf8(Judge::default().answer(&lent.encode())).unwrap();
    let numbers = |line: &str| line.split_whitespace().map(|number| number.parse().unwrap()).collect();
    answer.lines().map(numbers).collect()
}

fn answer(names: &Builtins, text: &str, rooms: Rooms) -> Vec<Vec<u32>> {
    lines(&Lent {
        is_guard: false,
        edition: None,
        names: Some(names.clone()),
        limit: 64,
        rooms,
        input: script(text).encode(),
    })
}

/// The eight numbers, and the used node and symbol rows, of an accepted script.
fn accepted(names: &Builtins, text: &str) -> (Vec<u32>, Vec<u32>) {
    let answer = answer(names, text, Known::beside(names.clone(), script(text), 64).ample());
    assert_eq!(answer[0][0], 0, "{text}");
    let used = |room: usize, width: usize| answer[room][..width * answer[0][room] as usize].to_vec();
    (used(1, 10), used(3, 2))
}

#[test]
fn symbols() {
    let two = names(b"print advance", &[0, 5, 6, 13]);
    let absent = u32::MAX;
    let root = |count: u32| [20, 0, 0, 0, count, absent, 0, 0, 0, absent];
    assert_eq!(accepted(&two, ""), (root(0).to_vec(), two.rows.clone()));
    let call = [
        [10, 0, 7, 1, 0, 7, 0, 0, 0, 2],
        [10, 8, 9, 2, 8, 9, 0, 0, 0, 2],
        [15, 7, 10, 0, 0, 1, 0, 0, 0, 3],
        [20, 0, 0, 1, 1, absent, 0, 0, 0, absent],
    ];
    assert_eq!(accepted(&two, "advance(x);"), (call.concat(), vec![0, 5, 6, 13, 8, 9]));
    let string = [[11, 0, 7, 0, 0, 0, 0, 0, 0, 1], root(1)];
    assert_eq!(accepted(&two, "\"print\";"), (string.concat(), two.rows.clone()));
    assert_eq!(accepted(&two, "prin; printx;").1, [0, 5, 6, 13, 0, 4, 6, 12]);
    assert_eq!(accepted(&two, "x; print; x;").1, [0, 5, 6, 13, 0, 1]);
    // the row of `a` in the built-in text is that of `b` in the script's
    assert_eq!(accepted(&names(b"xxa", &[2, 3]), "a;b;").1, [2, 3, 2, 3]);
    // rows that overlap and go back, and a number left over
    let three = names(b"abc", &[1, 3, 0, 2, 0, 3, 7]);
    assert_eq!(accepted(&three, "abc; ab; c;").1, [1, 3, 0, 2, 0, 3, 9, 10]);
    assert_eq!(accepted(&names(b"", &[9]), "a;").1, [0, 1]);
}

#[test]
fn symbol_room() {
    let two = names(b"print advance", &[0, 5, 6, 13]);
    let turned_away = vec![4, 0, 0, 0, 0, 0, 0, 255];
    let rooms = |symbols: u32| [60, 18, symbols, 18];
    assert_eq!(answer(&two, "print; advance;", rooms(4))[0], [0, 3, 2, 2, 0, 0, 0, 255]);
    assert_eq!(answer(&two, "print; x;", rooms(4))[0], [4, 0, 0, 0, 2, 7, 8, 255]);
    assert_eq!(answer(&two, "print; x;", rooms(5))[0], [4, 0, 0, 0, 2, 7, 8, 255]);
    assert_eq!(answer(&two, "print; x;", rooms(6))[0], [0, 3, 2, 3, 0, 0, 0, 255]);
    assert_eq!(answer(&two, "x; print;", rooms(5))[3], [0; 5]);
    for symbols in 0..4 {
        let answer = answer(&two, "print;", rooms(symbols));
        assert_eq!(answer[0], turned_away);
        assert!(answer[1..].iter().flatten().all(|number| *number == 7), "rooms as they were");
    }
}

/// What is wrong in each way is 18, and leaves the rooms as they were; what is nearly so is not.
#[test]
fn wrong_names() {
    for names in beside::wrong() {
        let lent = beside::faulty(&names, 0);
        let answer = lines(&lent);
        assert_eq!(answer[0], [18, 0, 0, 0, 0, 0, 0, 255], "{names:?}");
        assert!(answer[1..].iter().flatten().all(|number| *number == 7), "{names:?}");
    }
    for (text, rows, words) in RIGHT {
        let known = Known::beside(names(text, rows), script(words), 64);
        assert_eq!(known.turned_away(known.ample()), None, "{words}");
    }
    let long = |bytes: usize| Builtins { text: vec![b' '; bytes], rows: vec![] };
    assert_eq!(long(65_536).words(), Some(vec![]));
    assert_eq!(long(65_537).words(), None);
    let many = |count: u32| Builtins {
        text: (0..count).flat_map(|number| format!("n{number:02}").into_bytes()).collect(),
        rows: (0..count).flat_map(|number| [3 * number, 3 * number + 3]).collect(),
    };
    assert_eq!(many(64).words().map(|words| words.len()), Some(64));
    assert_eq!(many(65).words(), None);
}

/// Whatever is wrong together, the first check answers: 1, 3, 4 for scratch, 18, 4 for the built-in rows, 5, 6, 7; then 8.
#[test]
fn the_order() {
    let right = names(b"print advance", &[0, 5, 6, 13]);
    for (is_wrong, names) in
        [(false, right)].into_iter().chain(beside::wrong().into_iter().map(|names| (true, names)))
    {
        for faults in 0..1 << FAULTS {
            let has = |fault: usize| faults & 1 << fault != 0;
            let codes = [
                (has(0), 1),
                (has(1), 3),
                (has(2), 4),
                (is_wrong, 18),
                (has(3), 4),
                (has(4), 5),
                (has(5), 6),
                (has(6), 7),
                (has(7), 8),
                (true, 0),
            ];
            let code = codes.iter().find(|(is_met, _)| *is_met).expect("the last").1;
            let answer = lines(&beside::faulty(&names, faults));
            assert_eq!(answer[0][0], code, "{names:?} {faults:b}");
            let before = if code == 8 || code == 0 { 0 } else { 7 };
            assert!(code == 0 || answer[1..].iter().flatten().all(|number| *number == before));
        }
    }
}

#[test]
fn frames() {
    let built_in = names(b"ab", &[0, 2, 9]);
    let lent = Lent {
        is_guard: false,
        edition: None,
        names: Some(built_in),
        limit: 64,
        rooms: [20, 3, 4, 9],
        input: script("ab;").encode(),
    };
    let frame = lent.encode();
    let head = b"RN\x40\0\0\0\x14\0\0\0\x03\0\0\0\x04\0\0\0\x09\0\0\0\x02\0\0\0\x03\0\0\0ab\0\0\0\0\x02\0\0\0\x09\0\0\0";
    assert_eq!(frame[..head.len()], head[..]);
    assert_eq!(frame[head.len()..], lent.input);
    assert_eq!(Lent::decode(&frame), Some(lent.clone()));
    let mut judge = Judge::default();
    let told = " 0 2 1 1 0 0 0 255\n 10 0 2 0 0 2 0 0 0 1 20 0 0 0 1 4294967295 0 0 0 4294967295\n 0 0 0\n 0 2 0 0\n \
                0 0 0 0 0 0 0 0 0\n";
    assert_eq!(judge.answer(&frame), told.as_bytes());
    for length in [0, 1, 2, 29, 30, head.len() - 1, head.len(), frame.len() - 1] {
        assert_eq!(judge.answer(&frame[..length]), b"bad input\n", "{length} bytes");
    }
    let sized = |bytes: usize, numbers: usize| {
        let names = Some(Builtins { text: vec![0; bytes], rows: vec![0; numbers] });
        Lent::decode(&Lent { names, ..lent.clone() }.encode())
    };
    assert!(sized(8_192, 133).is_some() && sized(8_193, 0).is_none() && sized(0, 134).is_none());
    assert_eq!(
        beside::frames(1).take(12_000).collect::<Vec<_>>(),
        beside::frames(1).take(12_000).collect::<Vec<_>>()
    );
    assert!(beside::frames(2).take(12_000).all(|frame| frame.len() < 65_536));
}

/// Beside built-in names a script has the same rows but for its symbols, and those are built-in names, or the others in their
/// old order behind them.
#[test]
fn only_symbols_differ() {
    oracle::with_large_stack(|| {
        let cases = Cases::new(4);
        let (mut compared, mut used) = (0, 0);
        for index in 0..6_000 {
            let Some(case) = Case::decode(&cases.get(index)) else { continue };
            let random = &mut Random::of(4, index);
            let names = for_case(&case, 64, random);
            let words = names.words().expect("right names");
            let [alone, beside] =
                [Builtins::default(), names.clone()].map(|names| Known::beside(names, case.clone(), 64));
            assert_eq!(beside.lacking(beside.ample()), None);
            assert_eq!(beside.lacking(beside.fitting(beside.asked().len())), None);
            match (alone.outcome(), beside.outcome()) {
                (Outcome::Accepted(alone), Outcome::Accepted(beside)) => {
                    let mut next = words.len() as u32;
                    let mut places = names.places().to_vec();
                    let renamed: Vec<u32> = alone
                        .symbols
                        .iter()
                        .map(|place| {
                            let word =
                                str::from_utf8(&case.text[place[0] as usize..place[1] as usize]).unwrap();
                            if let Some(number) = words.iter().position(|name| *name == word) {
                                used += 1;
                                return number as u32;
                            }
                            places.push(*place);
                            next += 1;
                            next - 1
                        })
                        .collect();
                    assert_eq!(beside.symbols, places);
                    assert_eq!(*beside, with_symbols(alone, &renamed, places));
                    compared += 1;
                }
                (alone, beside) => assert_eq!(alone, beside),
            }
        }
        assert!(compared > 1_000 && used > 1_000, "{compared} compared, {used} names used");
    });
}

/// The rows with other symbols.
fn with_symbols(rows: &Rows, renamed: &[u32], symbols: Vec<[u32; 2]>) -> Rows {
    let mut rows = Rows { symbols, ..rows.clone() };
    let mut lists = Vec::new();
    for row in &mut rows.nodes {
        let symbol = match row[0] {
            7..=11 | 18 => 3,
            16 => 4,
            19 | 26 => 0,
            _ => continue,
        };
        if symbol > 0 {
            row[symbol] = renamed[row[symbol] as usize];
        }
        match row[0] {
            18 => lists.push(row[6]..row[6] + row[7]),
            19 => lists.push(row[3]..row[3] + row[4]),
            26 => lists.extend([row[3]..row[3] + row[4], row[5]..row[5] + row[6]]),
            _ => {}
        }
    }
    for link in lists.into_iter().flatten() {
        let symbol = &mut rows.links[link as usize][0];
        *symbol = renamed[*symbol as usize];
    }
    rows
}
