//! A station's scripts in one call: each is answered as it is alone, whatever stands beside it.
#[allow(dead_code)]
mod rows;

use kaori_syntax::{
    ANSWER_WIDTH, Builtins, Code, Edition, LINK_WIDTH, Lent, MAX_NAMES, MAX_SCRIPTS, MAX_TEXT, MAX_TOKENS,
    NODE_WIDTH, OwnedBuiltins, Refusal, Rooms, SCRATCH_WIDTH, SYMBOL_WIDTH, Scripts, Station, TOKEN_WIDTH,
    Tree, TurnedAway, parse_scripts, parse_with, read_scripts, read_with,
};
use rows::{decode, frame};

const LIST: &[u8] = include_bytes!("../../../crates/replay/stdin");

/// Good scripts, scripts of one edition alone, and scripts that are refused in each of many ways.
const TEXTS: [&str; 16] = [
    "show(total);",
    "",
    "a b;",
    "return;",
    "not typed and refreshed;",
    "a @",
    "for",
    "let s = \"print\"; print(s);",
    "a = \"b",
    "((((a))));",
    "(f)(x);",
    "\u{e9};",
    "if late { show(time platform); }",
    "import a.b: c, d;",
    "fun f(x, y) { while x < y { x = x + 1; } x }",
    "a + b * c - d / e % f == g;",
];

/// Rooms for one script as a station has them: parts of so many rows, and a list for no more tokens than there may be.
fn alone(rows: usize) -> Rooms {
    Rooms {
        nodes: vec![7; NODE_WIDTH * rows],
        links: vec![7; LINK_WIDTH * rows],
        symbols: vec![7; SYMBOL_WIDTH * rows],
        scratch: vec![7; SCRATCH_WIDTH * rows],
        list: vec![7; TOKEN_WIDTH * rows.min(MAX_TOKENS)],
    }
}

/// Everything that a tree has, or the refusal.
fn whole(script: Result<Tree, Refusal>) -> Result<String, Refusal> {
    script.map(|tree| {
        let names: Vec<_> = (0..tree.symbol_rows().len() as u32).map(|symbol| tree.symbol(symbol)).collect();
        let covers: Vec<_> = tree.rows().map(|row| tree.cover(row.number)).collect();
        let text = String::from_utf8_lossy(tree.text());
        format!(
            "{:?} {names:?} {covers:?} {text} {:?}",
            [tree.node_rows().concat(), tree.link_rows().concat(), tree.symbol_rows().concat()],
            tree.tokens().iter().collect::<Vec<_>>()
        )
    })
}

/// Holds a station's scripts to calls on each alone, and counts those that are read.
fn same(
    scripts: Scripts,
    rows: usize,
    mut call: impl FnMut(usize, &mut Rooms) -> Result<String, Refusal>,
) -> usize {
    let mut good = 0;
    for (number, script) in scripts.iter().enumerate() {
        let mut rooms = alone(rows);
        assert_eq!(whole(script), call(number, &mut rooms));
        good += usize::from(script.is_ok());
    }
    // by number and from the end as well
    assert_eq!((scripts.iter().len(), scripts.iter().count()), (scripts.len(), scripts.len()));
    for (number, script) in scripts.iter().enumerate().rev() {
        assert_eq!(whole(script), whole(scripts.get(number).unwrap()));
    }
    for number in [scripts.len(), usize::MAX] {
        assert!(scripts.get(number).is_none() && scripts.text(number).is_none());
        assert!(scripts.tokens(number).is_none());
    }
    good
}

#[test]
fn texts() {
    let builtins = OwnedBuiltins::new(&["print", "show", "late"]);
    let mut good = Vec::new();
    for names in [Builtins::NONE, builtins.lend()] {
        for edition in [1, 2, 3].map(Edition) {
            // rows for all, for some, and for none
            for rows in [40, 12, 8, 4, 2, 0] {
                let mut station = Station::with_rows(MAX_SCRIPTS, rows);
                // the second time nothing grows
                for limit in [64, 3] {
                    let scripts = station.read_with(names, &TEXTS, edition, limit).unwrap();
                    good.push(same(scripts, rows, |number, rooms| {
                        whole(rooms.read_with(names, TEXTS[number].as_bytes(), edition, limit))
                    }));
                    for (number, text) in TEXTS.iter().enumerate() {
                        assert_eq!(scripts.text(number), Some(text.as_bytes()));
                    }
                }
            }
        }
    }
    // some of the sixteen in each edition, with room; nothing without an edition, and nothing without rows
    assert_eq!((good[0], good[12], good[24]), (8, 10, 0));
    assert!(good.iter().skip(10).step_by(12).all(|&count| count == 0));
    // edition 1 and no names are what is read without them
    let mut station = Station::for_tokens(MAX_SCRIPTS, 40);
    let scripts = station.read(&TEXTS, 64).unwrap();
    assert_eq!(same(scripts, 40, |number, rooms| whole(rooms.read(TEXTS[number].as_bytes(), 64))), good[0]);
}

/// The fixed list of the Rust parser's answers, by 32 cases: from the tokens and from the texts.
#[test]
fn the_list_by_32() {
    let (mut rest, mut cases) = (LIST, Vec::new());
    while let Some(case) = frame(&mut rest) {
        frame(&mut rest).expect("an answer");
        cases.extend(decode(case));
    }
    let builtins = OwnedBuiltins::new(&["a", "x", "show"]);
    let mut station = Station::for_tokens_with(builtins.lend(), MAX_SCRIPTS, 512);
    let rows = station.rows();
    assert_eq!((station.scripts(), rows), (MAX_SCRIPTS, 515));
    let (mut good, mut made) = (0, 0);
    for (turn, cases) in cases.chunks(MAX_SCRIPTS).enumerate() {
        let edition = Edition(1 + turn as u32 % 2);
        let names = if turn % 3 == 0 { Builtins::NONE } else { builtins.lend() };
        let scripts = station.parse_with(names, cases, edition, 64).unwrap();
        good += same(scripts, rows, |number, rooms| {
            let (text, tokens) = &cases[number];
            assert_eq!(scripts.tokens(number), Some(&tokens[..]));
            whole(rooms.parse_with(names, text, tokens, edition, 64))
        });
        let texts: Vec<&[u8]> = cases.iter().map(|(text, _)| *text).collect();
        let scripts = station.read_with(names, &texts, edition, 64).unwrap();
        made += same(scripts, rows, |number, rooms| {
            let answer = whole(rooms.read_with(names, texts[number], edition, 64));
            // zeros or a list where one is made; else it has what the last call left
            let code = answer.as_ref().map_or_else(|why| why.code as u32, |_| 0);
            assert!([2, 5].contains(&code) || scripts.tokens(number) == Some(&rooms.list));
            answer
        });
    }
    assert!(cases.len() > 500 && good > 200 && made > 200, "{}: {good}, {made}", cases.len());
}

#[test]
fn how_many() {
    for room in [0, 1, 5, MAX_SCRIPTS, 100] {
        let mut station = Station::for_tokens(room, 4);
        assert_eq!(station.scripts(), room.min(MAX_SCRIPTS));
        let tokens = [43, 0, 1, 41, 1, 2, 44, 2, 2];
        for count in 0..40 {
            let texts = vec!["a;"; count];
            let right = (1..=room.min(MAX_SCRIPTS)).contains(&count);
            let why =
                if (1..=MAX_SCRIPTS).contains(&count) { TurnedAway::Rooms } else { TurnedAway::Scripts };
            let expected = if right { Ok(count) } else { Err(why) };
            assert_eq!(station.read(&texts, 64).map(|scripts| scripts.len()), expected);
            let both: Vec<_> = texts.iter().map(|text| (text, tokens)).collect();
            let scripts = station.parse(&both, 64);
            assert_eq!(scripts.map(|scripts| scripts.iter().filter(Result::is_ok).count()), expected);
        }
    }
    for why in [TurnedAway::Scripts, TurnedAway::Cuts, TurnedAway::Rooms] {
        let error: &dyn std::error::Error = &why;
        assert!(!error.to_string().is_empty());
        assert_eq!((why.code(), why.code() as u32), (Code::TurnedAway, 19));
    }
}

/// Texts and lists that are too long are refused alone, and rows beyond what a part can need are not lent.
#[test]
fn too_long() {
    let long = [vec![b' '; MAX_TEXT], vec![b' '; MAX_TEXT + 1], vec![b' '; 3 * MAX_TEXT]];
    let mut station = Station::with_rows(3, usize::MAX);
    assert_eq!(station.rows(), MAX_TOKENS + MAX_NAMES);
    let codes = |scripts: Scripts| -> Vec<u32> {
        scripts.iter().map(|script| script.map_or_else(|why| why.code as u32, |_| 0)).collect()
    };
    assert_eq!(codes(station.read(&long, 64).unwrap()), [0, 2, 2]);
    let list = |count: usize| [[43, 0, 1, 41, 1, 2].repeat(count / 2), vec![44, 2, 2]].concat();
    let lists = [2, 4096, 8192].map(|count| ("a;", list(count)));
    assert_eq!(codes(station.parse(&lists, 64).unwrap()), [0, 1, 1]);
    let names = "n;".repeat(2047) + "n";
    let scripts = station.read(&[&names, "a;"], 64).unwrap();
    assert_eq!(codes(scripts), [8, 0]);
    assert_eq!(scripts.tokens(0).map(<[u32]>::len), Some(TOKEN_WIDTH * MAX_TOKENS));
}

/// The rooms of a call over slices.
struct Slices {
    list: Vec<u32>,
    nodes: Vec<u32>,
    links: Vec<u32>,
    symbols: Vec<u32>,
    scratch: Vec<u32>,
    answers: Vec<u32>,
}

impl Slices {
    /// For so many scripts, with parts of so many rows, and so many numbers more in each.
    fn new(scripts: usize, rows: usize, more: usize) -> Slices {
        let room = |width: usize| vec![7; width * rows * scripts + more];
        Slices {
            list: room(TOKEN_WIDTH),
            nodes: room(NODE_WIDTH),
            links: room(LINK_WIDTH),
            symbols: room(SYMBOL_WIDTH),
            scratch: room(SCRATCH_WIDTH),
            answers: vec![7; ANSWER_WIDTH * scripts + more],
        }
    }

    fn all(&mut self) -> [&mut Vec<u32>; 6] {
        let Slices { list, nodes, links, symbols, scratch, answers } = self;
        [nodes, links, symbols, scratch, answers, list]
    }

    /// Both calls, with the lists of the one given and those of the other made.
    fn turned_away(&mut self, text: &[u8], cuts: &[u32], part: u32) -> Option<TurnedAway> {
        let Slices { list, nodes, links, symbols, scratch, answers } = self;
        let (names, edition) = (Builtins::NONE, Edition::FIRST);
        let rooms = Lent { nodes, links, symbols, scratch };
        let given = parse_scripts(names, text, list, cuts, edition, 64, part, rooms, answers).err();
        let rooms = Lent { nodes, links, symbols, scratch };
        let made = read_scripts(names, text, list, cuts, edition, 64, part, rooms, answers).err();
        assert_eq!(given, made);
        made
    }
}

#[test]
fn slices_of_the_callers() {
    let text = b"a;b c;";
    let right = [2, 9, 5, 18, 6, 27];
    let mut slices = Slices::new(3, 3, 2);
    assert_eq!(slices.turned_away(text, &right, 3), None);
    // numbers past the parts stay
    for room in slices.all() {
        assert_eq!(room[room.len() - 2..], [7, 7]);
    }
    let numbers: Vec<u32> = slices.answers.chunks_exact(ANSWER_WIDTH).map(|answer| answer[0]).collect();
    assert_eq!(numbers, [0, 8, 9]);

    let wrong: [(&[u32], TurnedAway); 9] = [
        (&[], TurnedAway::Scripts),
        (&[2], TurnedAway::Scripts),
        (&[0; 66], TurnedAway::Scripts),
        (&right[..5], TurnedAway::Cuts),
        (&[2, 9, 1, 18, 6, 27], TurnedAway::Cuts),
        (&[2, 9, 5, 8, 6, 27], TurnedAway::Cuts),
        (&[2, 9, 5, 18, 7, 27], TurnedAway::Cuts),
        (&[2, 9, 5, 18, 6, 30], TurnedAway::Cuts),
        (&[2, 9, 5, 18, u32::MAX, u32::MAX], TurnedAway::Cuts),
    ];
    let mut slices = Slices::new(3, 3, 2);
    for (cuts, why) in wrong {
        assert_eq!(slices.turned_away(text, cuts, 3), Some(why));
    }
    for part in [4, 5, u32::MAX] {
        assert_eq!(slices.turned_away(text, &right, part), Some(TurnedAway::Rooms));
    }
    // a number too few in each of the rooms; the list has its cuts
    for short in 0..6 {
        let mut slices = Slices::new(3, 3, 0);
        slices.all()[short].pop();
        let why = if short < 5 { TurnedAway::Rooms } else { TurnedAway::Cuts };
        assert_eq!(slices.turned_away(text, &right, 3), Some(why));
        assert!(slices.all().iter().all(|room| room.iter().all(|&number| number == 7)));
    }
    assert!(slices.all().iter().all(|room| room.iter().all(|&number| number == 7)));
    // equal cuts: a script without a text and a list. The last need not reach the ends
    assert_eq!(slices.turned_away(text, &[2, 9, 2, 9], 3), None);
    assert_eq!((slices.answers[0], slices.answers[8], slices.answers[16]), (0, 1, 7));
    assert!(slices.list[9..].iter().all(|&number| number == 7));
}

/// Numbers without a pattern.
struct Dice(u64);

impl Dice {
    fn roll(&mut self, sides: usize) -> usize {
        self.0 = self.0.wrapping_mul(6_364_136_223_846_793_005).wrapping_add(1_442_695_040_888_963_407);
        (self.0 >> 33) as usize % sides
    }
}

/// The part of a room or a text for script `number`.
fn cut<T: Clone>(all: &[T], from: u32, upto: u32) -> Vec<T> {
    all[from as usize..upto as usize].to_vec()
}

/// Texts, lists, cuts, parts and rooms at random: the call is turned away exactly where something is wrong, nothing is changed
/// then, and else each script's answer, list and parts are those of a call on it alone, and the rest is as it was.
#[test]
fn at_random() {
    let mut dice = Dice(7);
    let (mut right, mut wrong, mut good) = (0, [0; 3], 0);
    let builtins = OwnedBuiltins::new(&["a"]);
    for turn in 0..20_000 {
        let scripts = [1, 2, 3, 4, 1 + dice.roll(34)][dice.roll(5)];
        let words: [&[u8]; 8] = [b"a;", b"b", b"(", b")", b";", b" ", b"@", b"f(a);"];
        // one time in two nothing but `a;`
        let plain = dice.roll(2) == 0;
        let mut word = || words[if plain { 0 } else { dice.roll(8) }];
        let text: Vec<u8> = (0..3 * scripts).flat_map(|_| word()).copied().collect();
        let part = [0, 1, 2, 3, 4, 5, 6, 8][dice.roll(8)];
        let mut slices = Slices::new(scripts, part, dice.roll(3));
        // lists of `a;`, some of them cut in the middle
        slices.list = [43, 0, 1, 41, 1, 2, 44, 2, 2].repeat(scripts + 1);
        let mut cuts: Vec<u32> = Vec::new();
        let (mut text_end, mut list_end) = (0, 0);
        for _ in 0..scripts {
            text_end = (text_end + if plain { 2 } else { dice.roll(8) }).min(text.len());
            list_end = (list_end + [9, 9, 9, 0, 6, 4][dice.roll(6)]).min(slices.list.len());
            cuts.extend([text_end as u32, list_end as u32]);
        }
        // something may be wrong with them
        match dice.roll(12) {
            0 => drop(cuts.pop()),
            1 => cuts[dice.roll(2 * scripts)] = dice.roll(200) as u32,
            2 => cuts[dice.roll(2 * scripts)] = u32::MAX - dice.roll(2) as u32,
            3 => drop(slices.all()[dice.roll(5)].pop()),
            4 => slices.list.truncate(dice.roll(40)),
            5 => cuts.clear(),
            _ => {}
        }
        let end = |side: usize, i: usize| if i == 0 { 0 } else { cuts[2 * (i - 1) + side] };
        let n = cuts.len() / 2;
        let forward = |side: usize, long: usize| {
            (0..n).all(|i| end(side, i) <= end(side, i + 1) && end(side, i + 1) as usize <= long)
        };
        let model = if !(1..=MAX_SCRIPTS).contains(&n) {
            Some(TurnedAway::Scripts)
        } else if cuts.len() % 2 == 1 || !forward(0, text.len()) || !forward(1, slices.list.len()) {
            Some(TurnedAway::Cuts)
        } else {
            let lengths = slices.all().map(|room| room.len());
            let widths = [NODE_WIDTH, LINK_WIDTH, SYMBOL_WIDTH, SCRATCH_WIDTH].map(|width| width * part);
            let needs = widths.into_iter().chain([ANSWER_WIDTH]).map(|width| width * n);
            needs.zip(lengths).any(|(need, long)| long < need).then_some(TurnedAway::Rooms)
        };
        let names = if dice.roll(2) == 0 { Builtins::NONE } else { builtins.lend() };
        let (edition, limit) = (Edition([1, 1, 2, 3][dice.roll(4)]), [64, 64, 2, 0][dice.roll(4)]);
        let old = slices.all().map(|room| room.clone());
        let from_text = turn % 2 == 0;
        let answer = {
            let Slices { list, nodes, links, symbols, scratch, answers } = &mut slices;
            let rooms = Lent { nodes, links, symbols, scratch };
            let part = part as u32;
            let scripts = match from_text {
                true => read_scripts(names, &text, list, &cuts, edition, limit, part, rooms, answers),
                false => parse_scripts(names, &text, list, &cuts, edition, limit, part, rooms, answers),
            };
            scripts.map(|scripts| scripts.iter().map(whole).collect::<Vec<_>>())
        };
        let new = slices.all().map(|room| room.clone());
        let answer = match (answer, model) {
            (Err(why), Some(model)) => {
                assert_eq!((why, &new), (model, &old));
                wrong[why as usize] += 1;
                continue;
            }
            (Ok(answer), None) => answer,
            (answer, model) => panic!("{answer:?} and {model:?}"),
        };
        right += 1;
        let mut expected = old.clone();
        for (i, answer) in answer.iter().enumerate() {
            let script = cut(&text, end(0, i), end(0, i + 1));
            let (first, past) = (end(1, i) as usize, end(1, i + 1) as usize);
            let row = |width: usize| (width * part * i, width * part * (i + 1));
            let [(n, n1), (l, l1), (y, y1), (s, s1)] =
                [row(NODE_WIDTH), row(LINK_WIDTH), row(SYMBOL_WIDTH), row(SCRATCH_WIDTH)];
            let [nodes, links, symbols, scratch, _, list] = &mut expected;
            let rooms = Lent {
                nodes: &mut nodes[n..n1],
                links: &mut links[l..l1],
                symbols: &mut symbols[y..y1],
                scratch: &mut scratch[s..s1],
            };
            let alone = match from_text {
                true => read_with(names, &script, &mut list[first..past], edition, limit, rooms),
                false => parse_with(names, &script, &list[first..past], edition, limit, rooms),
            };
            good += usize::from(alone.is_ok());
            assert_eq!(*answer, whole(alone));
        }
        // the answers were held above; past them nothing has changed
        let past = ANSWER_WIDTH * n;
        assert_eq!(new[4][past..], expected[4][past..]);
        expected[4] = new[4].clone();
        assert_eq!(new, expected);
    }
    assert!(
        right > 10_000 && good > 4_000 && wrong.iter().all(|&count| count > 200),
        "{right} {good} {wrong:?}"
    );
}
