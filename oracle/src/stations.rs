//! The calls of a run (request L7): call `index` of a seed is always the same.
use crate::{
    answer::LIMIT,
    beside::{for_case, spoil as spoil_names},
    builtins::{Builtins, MAX_NAMES},
    case::Case,
    corners::{EDITIONS, RULES, SAMPLES},
    door,
    drawn::{damage, mangled, nested},
    editions::WRONG,
    joined::{Piece, corners, joined, piece},
    judge,
    lexer::Lexer,
    list::{Gaps, Word, printed, script},
    loads::{ANSWER, LARGEST, Load, MOST_SCRIPTS, Source},
    random::Random,
    rooms::WIDTHS,
    scripts::{any_words, script as written},
    terms::{FIRST, SECOND, Terms},
    texts,
};

/// How many rows all parts of a call may have together, and how many bytes a script that is drawn.
const MOST_ROWS: usize = 4_100;
const MOST_BYTES: usize = 3_000;

pub struct Calls {
    seed: u64,
    lexer: Lexer,
    corners: Vec<Load>,
}

impl Calls {
    pub fn new(seed: u64) -> Calls {
        Calls { seed, lexer: Lexer::new(), corners: corners() }
    }

    /// First the corners, and then calls that are drawn.
    pub fn get(&self, index: u64) -> Load {
        if let Some(corner) = self.corners.get(index as usize) {
            return corner.clone();
        }
        let random = &mut Random::of(self.seed, index);
        loop {
            let load = self.drawn(random);
            if load.is_taken() {
                return load;
            }
        }
    }

    fn drawn(&self, random: &mut Random) -> Load {
        let source = random.pick(&[Source::Given, Source::Given, Source::Made]);
        let edition = random.pick(&[FIRST, SECOND]);
        let count = count(random);
        let most = MOST_ROWS / count;
        let pieces: Vec<Piece> = (0..count)
            .map(|_| match source {
                Source::Given => given(edition, most, random),
                Source::Made => self.made(edition, most, random),
            })
            .collect();
        let names = names(&pieces, random);
        let part = part(&pieces, &names, random).min(most);
        let terms = terms(edition, &pieces, random);
        let mut load = joined(source, names, terms, part as u32, &pieces);
        leave_over(&mut load, random);
        if source == Source::Given && random.once_in(20) {
            count_in_joined(&mut load, random);
        }
        if random.once_in(6) {
            (0..random.pick(&[1, 1, 2, 3])).for_each(|_| spoil(&mut load, random));
        }
        load
    }

    /// A text, and a room for its tokens: just as large as they need, a number or a row less or more, or none.
    fn made(&self, edition: u32, most: usize, random: &mut Random) -> Piece {
        let mut text = match random.below(12) {
            0..7 => {
                let gaps = random.pick(&[texts::Gaps::Needed, texts::Gaps::Blanks, texts::Gaps::Careless]);
                texts::printed(&words(edition, most, random), gaps, random)
            }
            7..10 => {
                let mut text = texts::printed(&words(edition, most, random), texts::Gaps::Blanks, random);
                texts::damage(&mut text, random);
                text
            }
            10 => texts::random_text(random),
            _ => Vec::new(),
        };
        text.truncate(MOST_BYTES);
        let low: Vec<u8> = text.iter().map(|byte| byte & 127).collect();
        let tokens = self.lexer.tokens(&low).map_or(4, |tokens| tokens.len());
        let need = 3 * tokens.min(most);
        let room = match random.below(16) {
            0..9 => need,
            9 => need - 1,
            10 => need - 3,
            11 => need + 1,
            12 => need + 3,
            13 | 14 => need + random.below(30),
            _ => random.below(4),
        };
        Piece { text, list: vec![0; room] }
    }
}

/// How many scripts.
fn count(random: &mut Random) -> usize {
    match random.below(20) {
        0..2 => 1,
        2..10 => random.between(2, 4),
        10..16 => random.between(5, 12),
        16..19 => random.between(13, MOST_SCRIPTS - 1),
        _ => MOST_SCRIPTS,
    }
}

/// The words of a script, with or without faults.
fn words(edition: u32, most: usize, random: &mut Random) -> Vec<Word> {
    let size = match random.below(8) {
        0..5 => random.between(1, 20),
        5 | 6 => random.between(20, 60),
        _ => random.between(60, 130),
    };
    let mut list = match random.below(20) {
        0 => any_words(random, size / 3 + 1),
        1 if most > 300 => nested(edition, false, random),
        _ => written(edition, random, size),
    };
    if random.once_in(3) {
        (0..random.between(1, 3)).for_each(|_| damage(&mut list, random));
    }
    list.truncate(most.max(2) - 1);
    list
}

/// A script with its list.
fn given(edition: u32, most: usize, random: &mut Random) -> Piece {
    let case = match random.below(20) {
        0..15 => {
            let gaps = random.pick(&[Gaps::None, Gaps::Space, Gaps::Blanks, Gaps::Any]);
            printed(&words(edition, most, random), gaps, random)
        }
        15 | 16 => {
            let texts = random.pick(&[SAMPLES, RULES, EDITIONS]);
            script(random.pick(texts))
        }
        17 | 18 => mangled(edition, random),
        _ => Case { text: b"a;"[..random.below(3)].to_vec(), tokens: Vec::new() },
    };
    let mut piece = piece(&case);
    match random.below(40) {
        // no multiple of three
        0 => piece.list.push(random.below(50) as u32),
        1 => piece.list.extend([44, 0]),
        2 => drop(piece.list.pop()),
        // a kind that only its lowest byte would make one
        3 if !piece.list.is_empty() => {
            let token = 3 * random.below(piece.list.len() / 3);
            let more = random.pick(&[1 << 8, 1 << 16, 1 << 31]);
            piece.list[token] = piece.list[token].wrapping_add(more);
        }
        _ => {}
    }
    piece
}

/// Names for one of the scripts, right ones nine times out of ten; in every other call none.
fn names(pieces: &[Piece], random: &mut Random) -> Builtins {
    if random.once_in(2) {
        return Builtins::default();
    }
    let chosen = pieces[random.below(pieces.len())].case();
    let most = random.pick(&[4, 12, MAX_NAMES]);
    let mut names = for_case(&chosen, most, random);
    // so many that a part has no room for others, more often than they are drawn
    let least = if random.once_in(3) { 20 } else { 0 };
    for _ in 0..6 {
        if names.places().len() < least {
            names = for_case(&chosen, MAX_NAMES, random);
        }
    }
    if random.once_in(10) {
        spoil_names(&mut names, random);
    }
    names
}

/// The rows of a part: so that all scripts have room, or some, or none.
fn part(pieces: &[Piece], names: &Builtins, random: &mut Random) -> usize {
    let rows = |piece: &Piece| piece.list.len().div_ceil(3);
    let largest = pieces.iter().map(rows).max().unwrap_or(0);
    let one = rows(&pieces[random.below(pieces.len())]);
    let built_in = names.places().len();
    match random.below(16) {
        0..6 => largest.max(built_in) + random.below(3),
        6 | 7 => largest + built_in,
        8 | 9 => largest.max(built_in + random.below(4)),
        10 => largest.saturating_sub(1),
        11 | 12 => one,
        13 => one.max(built_in),
        14 => random.below(largest + 2),
        _ => random.below(2),
    }
}

/// An edition and a limit for all: now and then the other edition, or one that is none; a limit near a script's depth, or one that is
/// refused.
fn terms(edition: u32, pieces: &[Piece], random: &mut Random) -> Terms {
    let edition = match random.below(40) {
        0 => random.pick(&WRONG),
        1..5 => FIRST + SECOND - edition,
        _ => edition,
    };
    let limit = match random.below(40) {
        0 => random.pick(&[0, LIMIT + 1, u32::MAX]),
        1..8 => {
            let case = pieces[random.below(pieces.len())].case();
            let read_in = Terms { edition: if edition == FIRST { FIRST } else { SECOND }, limit: LIMIT };
            let depth = match door::refusal(&case, read_in) {
                None => judge::read(&Builtins::default(), &case, read_in).deepest,
                Some(_) => random.between(1, 6) as u32,
            };
            random.pick(&[depth.saturating_sub(1), depth, depth + 1]).clamp(1, LIMIT)
        }
        _ => LIMIT,
    };
    Terms { edition, limit }
}

/// Text and list behind the last cut, and numbers behind the parts.
fn leave_over(load: &mut Load, random: &mut Random) {
    if random.once_in(4) {
        load.text.extend((0..random.below(12)).map(|_| random.below(256) as u8));
        load.list.extend((0..random.below(8)).map(|_| random.below(60) as u32));
    }
    if random.once_in(2) {
        for (room, width) in load.rooms.iter_mut().zip(WIDTHS) {
            *room += random.pick(&[0, 1, width - 1, width, 2 * width + 1]);
        }
        load.answers += random.pick(&[0, 1, 7, 8, 19]);
    }
}

/// Counts a script's spans in the joined text, where they do not belong.
fn count_in_joined(load: &mut Load, random: &mut Random) {
    let scripts = load.scripts();
    let [text, list] = scripts[random.below(scripts.len())].clone();
    for token in load.list[list].as_chunks_mut::<3>().0 {
        token[1..].iter_mut().for_each(|offset| *offset = offset.wrapping_add(text.start as u32));
    }
}

/// Makes a call one that 19 is for, mostly.
fn spoil(load: &mut Load, random: &mut Random) {
    let count = load.count();
    let rows = load.part as usize * count;
    let side = random.below(2);
    let cut = 2 * random.below(count.max(1)) + side;
    let length = if side == 0 { load.text.len() } else { load.list.len() } as u32;
    match random.below(11) {
        0 => load.cuts.clear(),
        1 => many(load, random),
        2 => load.cuts.push(load.cuts.last().map_or(0, |cut| *cut)),
        3 => drop(load.cuts.pop()),
        // back, behind the cut before it or to 0
        4 | 5 if cut >= 2 && cut < load.cuts.len() => {
            let before = load.cuts[cut - 2];
            load.cuts[cut] = random.pick(&[before.saturating_sub(1), 0, before / 2]);
        }
        // past an end, the last one or any
        6 | 7 if load.cuts.len() > 1 => {
            let last = 2 * (load.cuts.len() / 2 - 1) + side;
            let cut = if random.once_in(2) { last } else { cut.min(last) };
            load.cuts[cut] = (length + 1).saturating_add(random.pick(&[0, 1, 1_000, u32::MAX]));
        }
        8 => {
            let room = random.below(4);
            let need = WIDTHS[room] as usize * rows;
            load.rooms[room] = random.pick(&[need.saturating_sub(1), 0, need / 2]) as u32;
        }
        9 => load.answers = random.pick(&[ANSWER * count - usize::from(count > 0), 0]) as u32,
        // rows whose numbers do not fit 32 bits, or are few in them
        10 => load.part = random.pick(&[u32::MAX, 429_496_730, 1 << 31, 1 << 30, 1 << 27, 1_431_655_766]),
        _ => load.cuts.insert(0, 0),
    }
}

/// 33 to 35 scripts, in rooms for all of them if the program has these.
fn many(load: &mut Load, random: &mut Random) {
    let last = load.cuts.as_chunks().0.last().copied().unwrap_or([0, 0]);
    let count = random.pick(&[MOST_SCRIPTS + 1, MOST_SCRIPTS + 1, LARGEST[4] / 2]);
    while load.count() < count {
        load.cuts.extend(last);
    }
    load.part = load.part.min((MOST_ROWS / count) as u32);
    for (room, width) in load.rooms.iter_mut().zip(WIDTHS) {
        *room = (*room).max(width * load.part * count as u32);
    }
    load.answers = load.answers.max((ANSWER * count) as u32);
}
