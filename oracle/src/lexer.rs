//! The token maker of request L1, made from the attributes of token.rs: they are taken from the file itself, and
//! become one automaton. No rule for a token is written down here.
use std::collections::{BTreeMap, BTreeSet, HashMap};

use kaori::TOKEN_RS;

/// What a text is that matches an attribute.
#[derive(Clone, Copy, PartialEq, Eq, PartialOrd, Ord, Debug)]
enum Meaning {
    /// A `token`: before a `regex` where both match.
    Fixed(u32),
    Pattern(u32),
    Skip,
}

type Bytes = [bool; 128];

/// A regular expression.
#[derive(Clone)]
enum Expression {
    One(Bytes),
    Chain(Vec<Expression>),
    Choice(Vec<Expression>),
    Maybe(Box<Expression>),
    Many(Box<Expression>),
}

/// The attributes of token.rs, and the number of Eof, the one kind that has none.
fn attributes() -> (Vec<(Meaning, Expression)>, u32) {
    let (mut found, mut waiting, mut kind, mut eof) = (Vec::new(), None, 0, None);
    let body = TOKEN_RS.split_once("pub enum Token {\n").expect("an enum");
    let skip = body.0.lines().find_map(|line| line.trim().strip_prefix("#[logos(skip ")).expect("a skip");
    found.push((Meaning::Skip, expression(quoted(skip.strip_suffix(")]").expect("an end")))));
    for line in body.1.lines().map(str::trim).take_while(|line| *line != "}") {
        let argument = |name: &str| line.strip_prefix(name).and_then(|rest| rest.strip_suffix(")]"));
        if let Some(text) = argument("#[token(") {
            waiting = Some((Meaning::Fixed(kind), literal(quoted(text))));
        } else if let Some(text) = argument("#[regex(") {
            waiting = Some((Meaning::Pattern(kind), expression(quoted(text))));
        } else {
            let name = line.strip_suffix(',').expect("a kind");
            match waiting.take() {
                Some(attribute) => found.push(attribute),
                None => assert!(eof.replace(kind).is_none() && name == "Eof", "{name} has no attribute"),
            }
            kind += 1;
        }
    }
    (found, eof.expect("an Eof"))
}

/// What stands in the quotes of a plain or a raw string.
fn quoted(text: &str) -> &str {
    let inside = match text.strip_prefix('r') {
        Some(raw) => raw.trim_start_matches('#').trim_end_matches('#'),
        None => text,
    };
    let inside = inside.strip_prefix('"').and_then(|rest| rest.strip_suffix('"')).expect("quotes");
    assert!(text.starts_with('r') || !inside.contains('\\'), "an escape in {text}");
    inside
}

fn set(matches: impl Fn(u8) -> bool) -> Bytes {
    std::array::from_fn(|byte| matches(byte as u8))
}

fn literal(text: &str) -> Expression {
    Expression::Chain(text.bytes().map(|byte| Expression::One(set(|other| other == byte))).collect())
}

fn expression(text: &str) -> Expression {
    let mut rest = text.as_bytes();
    let whole = choice(&mut rest);
    assert!(rest.is_empty(), "{text}: not understood");
    whole
}

fn choice(rest: &mut &[u8]) -> Expression {
    let mut ways = vec![chain(rest)];
    while let [b'|', more @ ..] = *rest {
        *rest = more;
        ways.push(chain(rest));
    }
    Expression::Choice(ways)
}

fn chain(rest: &mut &[u8]) -> Expression {
    let mut parts = Vec::new();
    while !matches!(rest.first(), None | Some(b'|' | b')')) {
        let part = item(rest);
        let again = match rest.first() {
            Some(b'?') => Expression::Maybe(Box::new(part)),
            Some(b'*') => Expression::Many(Box::new(part)),
            Some(b'+') => Expression::Chain(vec![part.clone(), Expression::Many(Box::new(part))]),
            _ => {
                parts.push(part);
                continue;
            }
        };
        take(rest);
        parts.push(again);
    }
    Expression::Chain(parts)
}

fn item(rest: &mut &[u8]) -> Expression {
    match take(rest) {
        b'(' => {
            let inner = choice(rest);
            assert_eq!(take(rest), b')');
            inner
        }
        b'[' => Expression::One(class(rest)),
        b'.' => Expression::One(set(|byte| byte != b'\n')),
        first => {
            let byte = plain(first, rest);
            Expression::One(set(|other| other == byte))
        }
    }
}

fn class(rest: &mut &[u8]) -> Bytes {
    let negated = rest.first() == Some(&b'^');
    if negated {
        take(rest);
    }
    let mut ranges = Vec::new();
    loop {
        let first = match take(rest) {
            b']' => break,
            byte => plain(byte, rest),
        };
        let last = match *rest {
            [b'-', last, more @ ..] if *last != b']' => {
                *rest = more;
                plain(*last, rest)
            }
            _ => first,
        };
        ranges.push(first..=last);
    }
    set(|byte| ranges.iter().any(|range| range.contains(&byte)) != negated)
}

/// A byte, perhaps by its escape.
fn plain(byte: u8, rest: &mut &[u8]) -> u8 {
    if byte != b'\\' {
        return byte;
    }
    match take(rest) {
        b't' => b'\t',
        b'f' => 12,
        b'r' => b'\r',
        b'n' => b'\n',
        byte if byte.is_ascii_punctuation() => byte,
        byte => panic!("the escape \\{} is not understood", byte as char),
    }
}

fn take(rest: &mut &[u8]) -> u8 {
    *rest.split_off_first().expect("more of a regular expression")
}

/// An automaton with free steps.
#[derive(Default)]
struct Net {
    steps: Vec<Vec<(Bytes, usize)>>,
    free: Vec<Vec<usize>>,
    ends: BTreeMap<usize, Meaning>,
}

impl Net {
    fn place(&mut self) -> usize {
        self.steps.push(Vec::new());
        self.free.push(Vec::new());
        self.steps.len() - 1
    }

    /// Adds the ways through an expression, and says where they end.
    fn add(&mut self, from: usize, expression: &Expression) -> usize {
        match expression {
            Expression::One(bytes) => {
                let to = self.place();
                self.steps[from].push((*bytes, to));
                to
            }
            Expression::Chain(parts) => parts.iter().fold(from, |at, part| self.add(at, part)),
            Expression::Choice(ways) => {
                let to = self.place();
                for way in ways {
                    let end = self.add(from, way);
                    self.free[end].push(to);
                }
                to
            }
            Expression::Maybe(inner) => {
                let to = self.add(from, inner);
                self.free[from].push(to);
                to
            }
            Expression::Many(inner) => {
                let (door, to) = (self.place(), self.place());
                self.free[from].push(door);
                self.free[door].push(to);
                let end = self.add(door, inner);
                self.free[end].push(door);
                to
            }
        }
    }

    /// All places that free steps lead to.
    fn closed(&self, mut open: Vec<usize>) -> BTreeSet<usize> {
        let mut places = BTreeSet::new();
        while let Some(place) = open.pop() {
            if places.insert(place) {
                open.extend(&self.free[place]);
            }
        }
        places
    }

    fn meaning(&self, places: &BTreeSet<usize>) -> Option<Meaning> {
        let mut found: Vec<_> = places.iter().filter_map(|place| self.ends.get(place)).copied().collect();
        found.sort();
        match *found {
            [] => None,
            [only] => Some(only),
            [fixed @ Meaning::Fixed(_), Meaning::Pattern(_)] => Some(fixed),
            _ => panic!("no attribute is first: {found:?}"),
        }
    }
}

/// A state: where each byte leads, and what a text is that ends here.
struct State {
    next: [Option<usize>; 128],
    meaning: Option<Meaning>,
}

pub struct Lexer {
    states: Vec<State>,
    eof: u32,
}

/// Kind, start, end.
pub type Made = [u32; 3];

impl Lexer {
    pub fn new() -> Lexer {
        let (attributes, eof) = attributes();
        let mut net = Net::default();
        let start = net.place();
        for (meaning, expression) in attributes {
            let from = net.place();
            net.free[start].push(from);
            let end = net.add(from, &expression);
            net.ends.insert(end, meaning);
        }
        let first = net.closed(vec![start]);
        let mut numbers = HashMap::from([(first.clone(), 0)]);
        let (mut sets, mut states) = (vec![first], Vec::new());
        while let Some(places) = sets.get(states.len()).cloned() {
            let next = std::array::from_fn(|byte| {
                let steps = places.iter().flat_map(|place| &net.steps[*place]);
                let reached = net.closed(steps.filter(|step| step.0[byte]).map(|step| step.1).collect());
                if reached.is_empty() {
                    return None;
                }
                Some(*numbers.entry(reached.clone()).or_insert_with(|| {
                    sets.push(reached);
                    sets.len() - 1
                }))
            });
            states.push(State { next, meaning: net.meaning(&places) });
        }
        assert!(states[0].meaning.is_none(), "an attribute matches the empty text");
        Lexer { states, eof }
    }

    /// The longest match from a place on.
    fn longest(&self, text: &[u8], start: usize) -> Option<(Meaning, usize)> {
        let (mut state, mut longest) = (&self.states[0], None);
        for at in start..text.len() {
            match state.next[text[at] as usize] {
                Some(next) => state = &self.states[next],
                None => break,
            }
            if let Some(meaning) = state.meaning {
                longest = Some((meaning, at + 1));
            }
        }
        longest
    }

    /// The tokens of a text of bytes up to 127, Eof last, or the first byte where none starts.
    pub fn tokens(&self, text: &[u8]) -> Result<Vec<Made>, usize> {
        let (mut tokens, mut at) = (Vec::new(), 0);
        while at < text.len() {
            let (meaning, end) = self.longest(text, at).ok_or(at)?;
            if let Meaning::Fixed(kind) | Meaning::Pattern(kind) = meaning {
                tokens.push([kind, at as u32, end as u32]);
            }
            at = end;
        }
        tokens.push([self.eof, at as u32, at as u32]);
        Ok(tokens)
    }

    /// The answer's six numbers for a text and a list room, which is left as it has to be.
    pub fn answer(&self, text: &[u8], room: &mut [u32]) -> [u32; 6] {
        if text.len() > 65_536 {
            return [2, 0, 0, 0, 0, 255];
        }
        if let Some(at) = text.iter().position(|byte| *byte > 127) {
            return [5, 0, 0, at as u32, at as u32 + 1, 255];
        }
        let tokens = self.tokens(text);
        room.fill(0);
        match tokens {
            Err(at) => [16, 0, 0, at as u32, at as u32 + 1, 255],
            Ok(tokens) if tokens.len() > 4_096 || 3 * tokens.len() > room.len() => [1, 0, 0, 0, 0, 255],
            Ok(tokens) => {
                room[..3 * tokens.len()].copy_from_slice(tokens.as_flattened());
                [0, tokens.len() as u32, 0, 0, 0, 255]
            }
        }
    }
}

impl Default for Lexer {
    fn default() -> Lexer {
        Lexer::new()
    }
}
