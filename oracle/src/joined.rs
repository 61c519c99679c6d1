//! Scripts joined to a station's call (request L7), and the calls that are written down.
use crate::{
    answer::LIMIT,
    beside::right_and_wrong,
    builtins::Builtins,
    case::Case,
    editions::WRONG,
    list::script,
    loads::{ANSWER, Load, MOST_SCRIPTS, Source, case},
    rooms::WIDTHS,
    terms::{FIRST, SECOND, Terms},
};

/// A script of a call: its text, and its list or how large the room for it is.
#[derive(Clone, PartialEq, Eq, Debug, Default)]
pub struct Piece {
    pub text: Vec<u8>,
    pub list: Vec<u32>,
}

impl Piece {
    pub fn case(&self) -> Case {
        case(&self.text, &self.list)
    }
}

/// A script with its list.
pub fn piece(case: &Case) -> Piece {
    let list = case.tokens.iter().flat_map(|token| [token.kind.into(), token.start, token.end]);
    Piece { text: case.text.clone(), list: list.collect() }
}

/// The scripts joined, in rooms of just the parts' sizes. Where the lists are made, the room for them holds i + 1 at number i.
pub fn joined(source: Source, names: Builtins, terms: Terms, part: u32, pieces: &[Piece]) -> Load {
    let (mut text, mut list, mut cuts) = (Vec::new(), Vec::new(), Vec::new());
    for piece in pieces {
        text.extend(&piece.text);
        list.extend(&piece.list);
        cuts.extend([text.len() as u32, list.len() as u32]);
    }
    if source == Source::Made {
        (1..).zip(&mut list).for_each(|(number, place)| *place = number);
    }
    let count = pieces.len() as u32;
    let rooms = WIDTHS.map(|width| width * part * count);
    Load { source, terms, part, names, text, list, cuts, rooms, answers: ANSWER as u32 * count }
}

/// Scripts with their lists, in edition 1 beside no names, with so many rows each.
pub fn given(part: u32, texts: &[&str]) -> Load {
    let pieces: Vec<_> = texts.iter().map(|text| piece(&script(text))).collect();
    joined(Source::Given, Builtins::default(), LIMIT.into(), part, &pieces)
}

/// Texts, each with a room of so many numbers for its tokens.
pub fn made(part: u32, texts: &[(&[u8], usize)]) -> Load {
    let piece = |(text, room): &(&[u8], usize)| Piece { text: text.to_vec(), list: vec![0; *room] };
    let pieces: Vec<_> = texts.iter().map(piece).collect();
    joined(Source::Made, Builtins::default(), LIMIT.into(), part, &pieces)
}

/// The calls that are written down: the small ones, and then those of limits that a script has and a call has not.
pub fn corners() -> Vec<Load> {
    [small(), large()].concat()
}

/// Small calls: all sorts of scripts side by side, and each thing that 19 is for, alone.
pub fn small() -> Vec<Load> {
    let mut calls = vec![
        given(3, &["a;"]),
        given(4, &["a;", "let b = 1;", "f(a, \"c\");"]),
        // refused in reading, first, last and between others
        given(8, &["a b", "a;", "for", "a +;", "f(a", "c;"]),
        // an empty list, an empty text, and both
        given(3, &["", "a;", ""]),
        // no room at all, and too little for some
        given(0, &["a;", ""]),
        given(3, &["a;", "a + b;", "c;"]),
        given(1, &["", "a;"]),
        made(8, &[(b"a;", 9), (b" b ( c ) ;", 18), (b"", 3)]),
        // a token that would run on into the next script, or begins in the one before it
        made(
            8,
            &[
                (b"a", 6),
                (b"b;", 9),
                (b"1", 6),
                (b".5;", 12),
                (b"a =", 9),
                (b"= b;", 12),
                (b"\"a", 9),
                (b"\";", 9),
            ],
        ),
        // refused by the token maker: 16, 5, and 1 for a room that is too small
        made(
            8,
            &[(b"a;", 9), (b"a $;", 12), (b"\x80;", 9), (b"a;", 8), (b"a;", 0), (b"a;", 10), (b"a;", 20)],
        ),
        made(0, &[(b"a;", 9), (b"$", 9), (b"", 3)]),
    ];
    calls.extend(spoiled_lists());
    calls.extend(on_terms());
    calls.extend(turned_away());
    calls.extend(left_over());
    calls
}

/// Lists that are not whole, equal cuts, kinds that are none, spans of the joined text.
fn spoiled_lists() -> Vec<Load> {
    let base = given(4, &["a;", "b;", "c;"]);
    let mut calls = Vec::new();
    // a cut that gives numbers of one list to another, and one text's bytes to another
    for (cut, value) in [(1, 8), (1, 10), (3, 9), (3, 27), (0, 1), (0, 3)] {
        let mut load = base.clone();
        load.cuts[cut] = value;
        calls.push(load);
    }
    let mut load = base.clone();
    load.cuts = [0, 0].repeat(5);
    load.rooms = WIDTHS.map(|width| width * 20);
    load.answers = 40;
    calls.push(load);
    // a kind that only its lowest byte would make one; a byte over 127; no Eof
    let mut load = base.clone();
    load.list[9] += 256;
    load.text[0] = 200;
    load.list[24] = 41;
    calls.push(load);
    let mut load = base.clone();
    load.cuts[3] = 15;
    load.cuts[1] = 6;
    calls.push(load);
    let mut load = base;
    load.list[9..18].as_chunks_mut::<3>().0.iter_mut().for_each(|token| {
        token[1] += 2;
        token[2] += 2;
    });
    calls.push(load);
    calls
}

/// Editions, limits and built-in names, which are one for all.
fn on_terms() -> Vec<Load> {
    let texts = ["not a and b;", "{return}", "advance(print);", "(a)(b);"];
    let base = given(9, &texts);
    let mut calls = Vec::new();
    let from_text = made(9, &[(b"(a);", 15), (b"for", 6), (b"$", 3), (b"{return}", 12)]);
    for (edition, limit) in [(SECOND, LIMIT), (WRONG[1], LIMIT), (FIRST, 0), (FIRST, 1), (SECOND, LIMIT + 1)]
    {
        let terms = Terms { edition, limit };
        calls.extend([&base, &from_text].map(|load| Load { terms, ..load.clone() }));
    }
    for names in right_and_wrong() {
        calls.push(Load { names: names.clone(), ..base.clone() });
        calls.push(Load { names, ..made(9, &[(b"print; x;", 15), (b"$", 3), (b"x; advance;", 15)]) });
    }
    // the built-in rows fill the part's symbols, or do not fit it
    let names = Builtins { text: b"print advance x".into(), rows: vec![0, 5, 6, 13, 14, 15] };
    calls.push(Load { names: names.clone(), ..given(3, &["a;", "x;", "\"print\";"]) });
    calls.push(Load { names: names.clone(), ..made(3, &[(b"a;", 9), (b"x;", 9)]) });
    calls.push(Load { names, ..given(2, &["", "a;"]) });
    calls
}

/// Each thing that 19 is for, alone; 32 scripts are none.
fn turned_away() -> Vec<Load> {
    let base = given(3, &["a;", "b;"]);
    let with_cuts = |cuts: &[u32]| Load { cuts: cuts.to_vec(), ..base.clone() };
    let all = vec!["a;"; MOST_SCRIPTS + 1];
    let mut calls = vec![given(3, &all[1..]), given(3, &all), with_cuts(&[])];
    // odd
    calls.extend([&[2][..], &[2, 9, 4], &[2, 9, 4, 18, 4]].map(with_cuts));
    // back in the text, and in the list; past the end of either, by the last cut and by one before it
    let wrong = [[2, 9, 1, 18], [2, 9, 4, 8], [2, 9, 5, 18], [2, 9, 4, 19], [5, 9, 4, 18], [2, 19, 4, 18]];
    calls.extend(wrong.map(|cuts| with_cuts(&cuts)));
    calls.push(with_cuts(&[2, 9, u32::MAX, u32::MAX]));
    // a number too few, in each room
    for room in 0..4 {
        let mut load = base.clone();
        load.rooms[room] -= 1;
        calls.push(load);
    }
    calls.push(Load { answers: 15, ..base.clone() });
    calls.push(Load { part: u32::MAX, ..base.clone() });
    // rows whose numbers come to few in 32 bits
    calls.push(Load { part: 1 << 31, ..base.clone() });
    calls.push(Load { source: Source::Made, cuts: vec![2, 9, 4, 19], ..base });
    calls
}

/// The last cut before both ends, and numbers behind the parts.
fn left_over() -> Vec<Load> {
    let sources = [given(3, &["a;", "b", "c;"]), made(3, &[(b"a;", 9), (b"b", 9), (b"c;", 12)])];
    let more = |mut load: Load| {
        load.text.extend(b";d\x80");
        load.list.extend([7, 8, 9, 10]);
        load.rooms = [99, 31, 19, 29];
        load.answers = 30;
        load
    };
    let mut calls: Vec<_> = sources.into_iter().map(more).collect();
    let one = calls[0].clone();
    calls.push(Load { cuts: vec![2, 9], ..one });
    calls
}

/// The limits of a script are not those of a call: a joined text over 65,536 bytes, and a joined list over 4,096 tokens; and scripts that pass
/// them, beside others.
pub fn large() -> Vec<Load> {
    let long = |size: usize| [&vec![b' '; size - 2], &b"a;"[..]].concat();
    let mut calls = Vec::new();
    for sizes in [[40_000, 40_000], [65_536, 65_536], [65_537, 60_000], [60_000, 65_537]] {
        let texts = sizes.map(long);
        calls.push(made(8, &[(&texts[0], 9), (b"b;", 9), (&texts[1], 9)]));
        let moved = |text: &Vec<u8>| {
            let mut case = script("a;");
            for token in &mut case.tokens {
                token.start += text.len() as u32 - 2;
                token.end += text.len() as u32 - 2;
            }
            piece(&Case { text: text.clone(), ..case })
        };
        let pieces = [moved(&texts[0]), piece(&script("b;")), moved(&texts[1])];
        calls.push(joined(Source::Given, Builtins::default(), LIMIT.into(), 4, &pieces));
    }
    for counts in [&[2_050, 2_050][..], &[4_096], &[4_097, 3]] {
        let texts: Vec<_> = counts.iter().map(|count| of_tokens(*count)).collect();
        let part = 4_100 / counts.len() as u32;
        calls.push(given(part, &texts.iter().map(String::as_str).collect::<Vec<_>>()));
        let lent = |(text, count): (&String, &usize)| (text.clone().into_bytes(), 3 * count + 3);
        let lent: Vec<_> = texts.iter().zip(counts).map(lent).collect();
        calls.push(made(part, &lent.iter().map(|(text, room)| (&text[..], *room)).collect::<Vec<_>>()));
    }
    calls
}

/// A script of so many tokens, its Eof among them: an odd number, or one over 3.
fn of_tokens(count: usize) -> String {
    match count % 2 {
        1 => "a;".repeat(count / 2),
        _ => "a;".repeat(count / 2 - 2) + "{b}",
    }
}
