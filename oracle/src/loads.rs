//! Request L7: a station's scripts in one call, as they are lent, and what the call leaves. Written from document 02's words. What
//! comes of each script is what the single call on it answers and leaves, which the other judges say.
use std::ops::Range;

use crate::{
    builtins::Builtins,
    case::{Case, MAX_TEXT, MAX_TOKENS, Token, number},
    lexer::Lexer,
    rooms::{
        BEFORE, Known, LARGEST as ALONE, Lent, MAX_NAMES_NUMBERS, MAX_NAMES_TEXT, Rooms, SCRATCH, WIDTHS,
    },
    terms::{FIRST, Terms},
    texts::encoded,
};

/// The code of a call that is turned away.
pub const TURNED_AWAY: u32 = 19;
/// The most scripts of a call, and the numbers of an answer.
pub const MOST_SCRIPTS: usize = 32;
pub const ANSWER: usize = 8;
/// The most that the program `loads` takes: bytes of the built-in text, numbers of its rows, bytes of the joined text, numbers of the
/// list, of the cuts, of the four rooms and of the answers' room.
pub const LARGEST: [usize; 10] =
    [MAX_NAMES_TEXT, MAX_NAMES_NUMBERS, 131_200, 12_600, 70, 41_100, 12_400, 8_300, 12_400, 300];

/// Where the token lists come from.
#[derive(Clone, Copy, PartialEq, Eq, Debug)]
pub enum Source {
    Given,
    /// By the token maker; the joined list is a room for them.
    Made,
}

/// A station's call.
#[derive(Clone, PartialEq, Eq, Debug)]
pub struct Load {
    pub source: Source,
    pub terms: Terms,
    /// How many rows a part of each room has.
    pub part: u32,
    pub names: Builtins,
    pub text: Vec<u8>,
    pub list: Vec<u32>,
    /// Each script's end in the text and in the list's numbers.
    pub cuts: Vec<u32>,
    /// How many numbers the four rooms have, and the answers' room.
    pub rooms: Rooms,
    pub answers: u32,
}

/// What 19 is for: '0 or more than 32 scripts, an odd list of cuts, a cut that goes back or past an end, or rooms smaller than the parts
/// need'. The answers' room is one of these.
#[derive(Clone, Copy, PartialEq, Eq, Debug)]
pub enum Fault {
    None,
    Many,
    Odd,
    Back,
    Past,
    Small,
    Answers,
}

pub const FAULTS: [Fault; 7] =
    [Fault::None, Fault::Many, Fault::Odd, Fault::Back, Fault::Past, Fault::Small, Fault::Answers];

/// What comes of a script.
#[derive(Clone, Copy, PartialEq, Eq, PartialOrd, Ord, Debug)]
pub enum Came {
    Accepted,
    /// Refused in reading.
    Read(u32),
    /// Turned away at the door.
    Door(u32),
    /// Refused by the token maker.
    Unmade(u32),
}

/// What a call leaves: its code, and the list, the four rooms and the answers' room.
#[derive(Clone, PartialEq, Eq, Debug)]
pub struct Left {
    pub code: u32,
    pub list: Vec<u32>,
    pub rooms: [Vec<u32>; 4],
    pub answers: Vec<u32>,
}

impl Left {
    pub fn encode(&self) -> Vec<u8> {
        let [nodes, links, symbols, scratch] = &self.rooms;
        encoded(&[&[self.code][..], &self.list, nodes, links, symbols, scratch, &self.answers].concat())
    }

    /// The lists by name.
    pub fn lists(&self) -> [(&'static str, &[u32]); 6] {
        let [nodes, links, symbols, scratch] = &self.rooms;
        let names = ["list", "nodes", "links", "symbols", "scratch", "answers"];
        let lists = [&self.list, nodes, links, symbols, scratch, &self.answers];
        std::array::from_fn(|place| (names[place], &lists[place][..]))
    }
}

impl Load {
    /// The sizes that a frame tells.
    fn sizes(&self) -> [usize; 10] {
        let [nodes, links, symbols, scratch] = self.rooms.map(|size| size as usize);
        let Builtins { text, rows } = &self.names;
        let lent = [text.len(), rows.len(), self.text.len(), self.list.len(), self.cuts.len()];
        let [names, rows, text, list, cuts] = lent;
        [names, rows, text, list, cuts, nodes, links, symbols, scratch, self.answers as usize]
    }

    /// Whether the program takes it.
    pub fn is_taken(&self) -> bool {
        self.sizes().iter().zip(LARGEST).all(|(size, largest)| *size <= largest)
    }

    pub fn encode(&self) -> Vec<u8> {
        let Terms { edition, limit } = self.terms;
        let head = [(self.source == Source::Made) as u32, edition, limit, self.part];
        let sizes = self.sizes().map(|size| size as u32);
        let Builtins { text, rows } = &self.names;
        let [head, sizes, rows, list, cuts] =
            [&head[..], &sizes, rows, &self.list, &self.cuts].map(|numbers| encoded(numbers));
        [&head, &sizes, text, &rows, &self.text, &list, &cuts].map(|bytes| &bytes[..]).concat()
    }

    /// None: a size that the program does not take, or a frame that does not end with its last number.
    pub fn decode(frame: &[u8]) -> Option<Load> {
        let mut rest = frame;
        let mut head = [0; 4];
        for number_of in &mut head {
            *number_of = number(&mut rest)?;
        }
        let mut sizes = [0; 10];
        for size in &mut sizes {
            *size = number(&mut rest)? as usize;
        }
        let [names, rows, text, list, cuts, nodes, links, symbols, scratch, answers] = sizes;
        let names = rest.split_off(..names)?.to_vec();
        let rows = numbers(&mut rest, rows)?;
        let text = rest.split_off(..text)?.to_vec();
        let [list, cuts] = [numbers(&mut rest, list)?, numbers(&mut rest, cuts)?];
        let [source, edition, limit, part] = head;
        let load = Load {
            source: if source == 0 { Source::Given } else { Source::Made },
            terms: Terms { edition, limit },
            part,
            names: Builtins { text: names, rows },
            text,
            list,
            cuts,
            rooms: [nodes, links, symbols, scratch].map(|size| size as u32),
            answers: answers as u32,
        };
        (rest.is_empty() && load.is_taken()).then_some(load)
    }

    /// How many scripts there are: two cuts each.
    pub fn count(&self) -> usize {
        self.cuts.len() / 2
    }

    /// All that 19 is for.
    pub fn faults(&self) -> Vec<Fault> {
        let count = self.count() as u64;
        let lengths = [self.text.len(), self.list.len()];
        let is_short = |has: u32, needs: u64| u64::from(has) < needs;
        let rows = u64::from(self.part) * count;
        let mut faults = Vec::new();
        let mut add = |is_there: bool, fault: Fault| faults.extend(is_there.then_some(fault));
        add(count == 0, Fault::None);
        add(count > MOST_SCRIPTS as u64, Fault::Many);
        add(self.cuts.len() % 2 == 1, Fault::Odd);
        add((0..2).any(|side| !self.side(side).is_sorted()), Fault::Back);
        add((0..2).any(|side| self.side(side).any(|cut| cut as usize > lengths[side])), Fault::Past);
        add((0..4).any(|room| is_short(self.rooms[room], u64::from(WIDTHS[room]) * rows)), Fault::Small);
        add(is_short(self.answers, ANSWER as u64 * count), Fault::Answers);
        faults
    }

    /// The cuts of the text (0) or of the list (1).
    fn side(&self, side: usize) -> impl Iterator<Item = u32> {
        self.cuts.iter().copied().skip(side).step_by(2)
    }

    /// Where each script stands in the text and in the list: 'the first starts at 0'. The cuts are right.
    pub fn scripts(&self) -> Vec<[Range<usize>; 2]> {
        let mut from = [0, 0];
        let script = |ends: &[u32; 2]| {
            let to = ends.map(|end| end as usize);
            let places = [from[0]..to[0], from[1]..to[1]];
            from = to;
            places
        };
        self.cuts.as_chunks().0.iter().map(script).collect()
    }

    /// How many numbers a part of each room has.
    pub fn parts(&self) -> Rooms {
        WIDTHS.map(|width| width * self.part)
    }

    /// All numbers as they are before the call: in a room i + 1 at number i.
    pub fn before(&self) -> Left {
        let marked = |size: u32| (1..=size).collect();
        Left {
            code: 0,
            list: self.list.clone(),
            rooms: self.rooms.map(marked),
            answers: marked(self.answers),
        }
    }

    /// What the call leaves, and what comes of each script: 'Answer and part equal those of the single call on that script with that part'.
    pub fn left(&self, lexer: &Lexer) -> (Left, Vec<Came>) {
        let mut left = self.before();
        if !self.faults().is_empty() {
            left.code = TURNED_AWAY;
            return (left, Vec::new());
        }
        let parts = self.parts();
        let mut came = Vec::new();
        for (script, [text, list]) in self.scripts().into_iter().enumerate() {
            let (numbers, rooms, comes) = self.single(&self.text[text], &mut left.list[list], lexer);
            left.answers[ANSWER * script..][..ANSWER].copy_from_slice(&numbers);
            for (room, part) in rooms.into_iter().flatten().enumerate() {
                let size = parts[room] as usize;
                left.rooms[room][size * script..][..size].copy_from_slice(&part);
            }
            came.push(comes);
        }
        (left, came)
    }

    /// The single call on a text with a list, or a room for one, in a part: its eight numbers, the part of each room, if these change, and
    /// what comes of it.
    fn single(
        &self,
        text: &[u8],
        list: &mut [u32],
        lexer: &Lexer,
    ) -> ([u32; 8], Option<[Vec<u32>; 4]>, Came) {
        let mut tokens = &list[..];
        if self.source == Source::Made {
            let [code, count, at, start, end, expected] = lexer.answer(text, list);
            if code != 0 {
                return ([code, 0, 0, 0, at, start, end, expected], None, Came::Unmade(code));
            }
            tokens = &list[..3 * count as usize];
        }
        let known = Known::beside(self.names.clone(), case(text, tokens), self.terms);
        let (numbers, rooms) = known.leaves(self.parts());
        let came = match (numbers[0], &rooms) {
            (0, _) => Came::Accepted,
            (code, None) => Came::Door(code),
            (code, Some(_)) => Came::Read(code),
        };
        (numbers, rooms, came)
    }

    /// Each script as a frame of the program `batch`, in rooms of a part's size, where that program takes it. The cuts are right.
    pub fn alone(&self) -> Vec<Option<Vec<u8>>> {
        let frame = |[text, list]: [Range<usize>; 2]| {
            let (text, list) = (&self.text[text], &self.list[list]);
            let is_whole = list.len() % 3 == 0 && list.iter().step_by(3).all(|kind| *kind < 256);
            let is_small = text.len() <= MAX_TEXT && list.len() <= 3 * MAX_TOKENS;
            let is_roomy = self.parts().iter().zip(ALONE).all(|(part, largest)| *part <= largest);
            let Terms { edition, limit } = self.terms;
            (self.source == Source::Given && is_whole && is_small && is_roomy).then(|| {
                let lent = Lent {
                    is_guard: false,
                    edition: (edition != FIRST).then_some(edition),
                    names: Some(self.names.clone()),
                    limit,
                    rooms: self.parts(),
                    input: case(text, list).encode(),
                };
                lent.encode()
            })
        };
        self.scripts().into_iter().map(frame).collect()
    }

    /// Whether a script's answer and part are what `batch` answered of it: five lines. Where its scratch room is as it was, nothing has
    /// changed.
    pub fn agrees(&self, script: usize, left: &Left, batch: &[u8]) -> bool {
        let lines = String::from_utf8_lossy(batch);
        let numbers = |line: &str| line.split_whitespace().map(|word| word.parse().ok()).collect();
        let Some(lines) = lines.lines().map(numbers).collect::<Option<Vec<Vec<u32>>>>() else {
            return false;
        };
        let [answer, rooms @ ..] = &lines[..] else { return false };
        let parts = self.parts().map(|part| part as usize);
        let is_kept = rooms.get(SCRATCH).is_some_and(|scratch| scratch.first() == Some(&BEFORE));
        let before = self.before();
        let is_same = |room: usize| {
            let place = parts[room] * script..parts[room] * (script + 1);
            let expected = if is_kept { &before.rooms[room][place.clone()] } else { &rooms[room][..] };
            left.rooms[room].get(place) == Some(expected)
        };
        rooms.len() == 4
            && left.answers.get(ANSWER * script..ANSWER * (script + 1)) == Some(answer)
            && (0..4).all(is_same)
    }

    /// An answer of the program. None: one that is too long or too short.
    pub fn taken(&self, answer: &[u8]) -> Option<Left> {
        let mut rest = answer;
        let code = number(&mut rest)?;
        let list = numbers(&mut rest, self.list.len())?;
        let mut rooms = self.rooms.map(|_| Vec::new());
        for (room, size) in rooms.iter_mut().zip(self.rooms) {
            *room = numbers(&mut rest, size as usize)?;
        }
        let answers = numbers(&mut rest, self.answers as usize)?;
        rest.is_empty().then_some(Left { code, list, rooms, answers })
    }
}

fn numbers(rest: &mut &[u8], count: usize) -> Option<Vec<u32>> {
    let bytes = rest.split_off(..4 * count)?;
    Some(bytes.as_chunks().0.iter().map(|four| u32::from_le_bytes(*four)).collect())
}

/// A text and a list. One that is not three times a count has no tokens here: both are refused by 1. A kind over 255 is 255: both are over 44.
pub fn case(text: &[u8], list: &[u32]) -> Case {
    let (tokens, more) = list.as_chunks();
    let token = |[kind, start, end]: &[u32; 3]| Token {
        kind: u8::try_from(*kind).unwrap_or(u8::MAX),
        start: *start,
        end: *end,
    };
    let tokens = if more.is_empty() { tokens.iter().map(token).collect() } else { Vec::new() };
    Case { text: text.to_vec(), tokens }
}

/// The first number that differs, by its place.
pub fn difference(right: &Left, given: &Left) -> Option<String> {
    if right.code != given.code {
        return Some(format!("code: {} and not {}", given.code, right.code));
    }
    for ((name, right), (_, given)) in right.lists().into_iter().zip(given.lists()) {
        if right.len() != given.len() {
            return Some(format!("{name}: {} numbers and not {}", given.len(), right.len()));
        }
        if let Some(place) = (0..right.len()).find(|place| right[*place] != given[*place]) {
            return Some(format!("{name}, number {place}: {} and not {}", given[place], right[place]));
        }
    }
    None
}
