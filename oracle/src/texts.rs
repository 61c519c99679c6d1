//! The texts of a run: text `index` of `seed` is always the same.
use crate::{
    kinds::spelling,
    lexer::Lexer,
    list::Word,
    random::Random,
    scripts::{any_words, script, script_of},
    terms::FIRST,
};

/// The program `texts` takes no larger list room.
pub const MAX_ROOM: usize = 12_400;
const MAX_TEXT: usize = 65_536;
const MAX_TOKENS: usize = 4_096;

/// A text, and how many numbers its list room has.
#[derive(Clone, PartialEq, Eq, Debug)]
pub struct Text {
    pub room: usize,
    pub bytes: Vec<u8>,
}

impl Text {
    pub fn encode(&self) -> Vec<u8> {
        [&(self.room as u32).to_le_bytes()[..], &self.bytes].concat()
    }

    /// The answer's six numbers and the room, which has had i + 1 at number i.
    pub fn answer(&self, lexer: &Lexer) -> Vec<u32> {
        let mut room: Vec<u32> = (1..=self.room as u32).collect();
        let mut answer = lexer.answer(&self.bytes, &mut room).to_vec();
        answer.extend(room);
        answer
    }
}

pub fn encoded(numbers: &[u32]) -> Vec<u8> {
    numbers.iter().flat_map(|number| number.to_le_bytes()).collect()
}

/// Texts that are written down.
#[rustfmt::skip]
const WRITTEN: &[&str] = &[
    "", "a;", "1.", "1.x", "1..2", "1.2.3", "1.2.", "1e", "1e+", "1e-", "1E", "1E+x", "1e5", "1e+5", "1e5.5", "1e5e5",
    "1.e5", "1.5e", "1.5e+", "1.5e-7", "1.5E", "1.5ex", "12ab", "1_", "00", "0.0", ".5", "5.", "1+2", "1-2", "-1",
    "1e 5", "1 .5", "1. 5", "1e\n", "1e+\"", "1.\"\"",
    "\"\"", "\"", "\"a", "\"a\"", "\"a\"b\"", "\"\\", "\"\\\"", "\"\\\"\"", "\"\\\\\"", "\"\\\\\\\"", "\"\n\"", "\"\\\n\"",
    "\"\\\n", "a \"\\\n\" b", "\"a\\\nb\" \"c\"", "\"\\\r\"", "\"\\\r\n\"", "\"\\\0\"", "\"\\\t\"", "\"\0\"", "\"\x7F\"", "\"\\\x7F\"",
    "\"a\nb\"c", "\"\"\"\"", "\"\"\"", "\"a", " \"", "\"\\a", "\"\u{80}\"", "\"\\\u{80}\"", "\"é",
    "!", "!=", "!==", "! =", "=", "==", "===", "====", "=!=", "=>", ">=", ">>=", ">==", "<=", "<=>", "<<=", "<>", "=<",
    "a!", "a!=b", "a!b", "a=!b", "&", "&&", "||", "|a|", "@", "$", "?", "'", "`", "~", "[", "]", "\\",
    " ", "\t", "\x0C", "\r", "\n", " \t\x0C\r\n", "\x0B", "a\x0Bb", "\0", "\x7F", "a\x1Cb", "\u{85}", "\u{A0}", "é", "a é",
    "a \"", "$é", "é$", "a b c", "a\tb\x0Cc\rd\ne", "_", "_1", "__", "A", "Z", "aZ_09", "If", "IF", "iF",
    "// a", "/* a */", "# a", "#{}", "a.b.c", "a . b", "let x = 1;", "x=1;y=2;", "fun f(a){return a;}", "import a.b: c;",
];

pub struct Texts {
    seed: u64,
    lexer: Lexer,
    corners: Vec<Text>,
}

impl Texts {
    pub fn new(seed: u64) -> Texts {
        let mut texts = Texts { seed, lexer: Lexer::new(), corners: Vec::new() };
        let mut bytes: Vec<Vec<u8>> = WRITTEN.iter().map(|text| text.as_bytes().to_vec()).collect();
        bytes.extend(around_keywords());
        bytes.extend(around_bytes());
        bytes.extend(at_sizes());
        bytes.extend(at_counts());
        for bytes in bytes {
            let need = texts.need(&bytes);
            let mut rooms = vec![need, need.saturating_sub(1), need.saturating_sub(3), need + 1, need + 5, 0];
            if bytes.len() > 1_000 {
                rooms.extend([3 * MAX_TOKENS - 1, 3 * MAX_TOKENS, 3 * MAX_TOKENS + 3, MAX_ROOM]);
            }
            rooms.sort();
            rooms.dedup();
            let fitting = rooms.into_iter().filter(|room| *room <= MAX_ROOM);
            texts.corners.extend(fitting.map(|room| Text { room, bytes: bytes.clone() }));
        }
        texts
    }

    /// First the corners; then every third text is a short one, until there are no more of them.
    pub fn get(&self, index: u64) -> Text {
        if let Some(corner) = self.corners.get(index as usize) {
            return corner.clone();
        }
        let index = index - self.corners.len() as u64;
        let random = &mut Random::of(self.seed, index);
        let bytes = match short(index / 3) {
            Some(short) if index % 3 == 0 => short,
            _ => random_text(random),
        };
        let need = self.need(&bytes);
        let room = match random.below(16) {
            0..6 => need,
            6 => need.saturating_sub(1),
            7 => need.saturating_sub(2),
            8 => need.saturating_sub(3),
            9 => need + 1,
            10 => need + 2,
            11 => need + 3,
            12 => random.below(need + 1),
            13 | 14 => need + random.below(40),
            _ if random.once_in(8) => random.between(3 * MAX_TOKENS - 4, MAX_ROOM),
            _ => random.below(4),
        };
        Text { room: room.min(MAX_ROOM), bytes }
    }

    /// How many numbers the tokens of a text take, or would take without what is wrong with it.
    fn need(&self, bytes: &[u8]) -> usize {
        let low: Vec<u8> = bytes.iter().map(|byte| byte & 127).collect();
        let tokens = match self.lexer.tokens(&low) {
            Ok(tokens) => tokens.len(),
            Err(at) => 1 + self.lexer.tokens(&low[..at]).map_or(0, |tokens| tokens.len()),
        };
        3 * tokens
    }
}

/// Bytes that end or go on with some token.
const ALPHABET: &[u8] = b"\"\\\n\r\t\x0C\x0B .,eE+-=!<>0_az9;:|#({*/^%$\x7F";

/// Every pair of bytes up to 127, and then every three bytes of the alphabet.
fn short(number: u64) -> Option<Vec<u8>> {
    let number = number as usize;
    if number < 128 * 128 {
        return Some(vec![(number / 128) as u8, (number % 128) as u8]);
    }
    let (number, count) = (number - 128 * 128, ALPHABET.len());
    let place = |power: u32| ALPHABET[number / count.pow(power) % count];
    (number < count.pow(3)).then(|| vec![place(2), place(1), place(0)])
}

/// Each keyword and sign, and texts that nearly are one.
fn around_keywords() -> Vec<Vec<u8>> {
    let around = |word: &str| {
        let shorter = &word[..word.len() - 1];
        let upper = word.to_ascii_uppercase();
        [
            word.to_string(),
            shorter.to_string(),
            upper,
            format!("{word}x"),
            format!("x{word}"),
            format!("{word}_"),
            format!("{word}0"),
            format!("0{word}"),
            format!("{word}{word}"),
            format!("{word} {word}"),
            format!("{word}="),
            format!("={word}"),
            format!("{word}.{word}"),
            format!("\"{word}\"{word}"),
        ]
    };
    (0..44).filter_map(spelling).flat_map(around).map(String::into_bytes).collect()
}

/// Every byte value alone and beside tokens.
fn around_bytes() -> Vec<Vec<u8>> {
    let forms: &[(&str, &str)] = &[
        ("", ""),
        ("a", "a"),
        ("1", "1"),
        ("1.", "1"),
        ("1e", "1"),
        ("\"", "\""),
        ("\"\\", "\""),
        ("=", "="),
        (" ", ";"),
    ];
    let byte = |byte: u8| {
        forms.iter().map(move |(before, after)| [before.as_bytes(), &[byte], after.as_bytes()].concat())
    };
    (0..=255).flat_map(byte).collect()
}

/// Texts of 65,535 to 65,537 bytes.
fn at_sizes() -> Vec<Vec<u8>> {
    let mut texts = Vec::new();
    for size in MAX_TEXT - 1..=MAX_TEXT + 1 {
        let filled = |byte: u8| vec![byte; size];
        let ending = |byte: u8, end: &[u8]| [&vec![byte; size - end.len()], end].concat();
        let between = |start: &[u8], byte: u8, end: &[u8]| {
            [start, &vec![byte; size - start.len() - end.len()], end].concat()
        };
        texts.extend([
            filled(b' '),
            filled(b'\n'),
            filled(b'a'),
            filled(b'7'),
            filled(b'"'),
            filled(b'='),
            filled(0),
        ]);
        texts.extend([
            filled(200),
            ending(b' ', b"a"),
            ending(b' ', b"$"),
            ending(b' ', b"\xFF"),
            ending(b'a', b"\x80"),
        ]);
        texts.extend([
            ending(b' ', b"\""),
            ending(b' ', b"1."),
            ending(b' ', b"1e"),
            ending(b' ', b"!"),
            ending(b'1', b"e+"),
        ]);
        texts.extend([between(b"\"", b'x', b"\""), between(b"\"", b'x', b"y"), between(b"\"", b'\\', b"\"")]);
        texts.extend([
            between(b"\"\\", b'\n', b"\""),
            between(b"1.", b'5', b"e"),
            between(b"1e+", b'5', b"x"),
        ]);
        texts.extend([
            between(b"\x80", b' ', b"a"),
            between(b"$", b' ', b"\x80"),
            between(b"a;", b'\r', b";"),
        ]);
    }
    texts
}

/// Texts of 4,094 to 4,098 tokens, Eof among them.
fn at_counts() -> Vec<Vec<u8>> {
    let mut texts = Vec::new();
    for count in MAX_TOKENS - 2..=MAX_TOKENS + 2 {
        for piece in [";", "a ", "1.", "\"\"", " =\t", "if\n"] {
            let text = match piece {
                "1." => piece.repeat((count - 1) / 2) + if count % 2 == 0 { "1" } else { "" },
                piece => piece.repeat(count - 1),
            };
            texts.extend(
                [text.clone(), format!("{text} $"), format!("{text} \""), format!("{text}\u{80}")]
                    .map(String::into_bytes),
            );
        }
    }
    texts
}

/// A text of any sort.
pub fn random_text(random: &mut Random) -> Vec<u8> {
    match random.below(400) {
        0 => return many(random),
        1 => return long(random),
        _ => {}
    }
    match random.below(20) {
        0..6 => grown(random),
        6..14 => {
            let mut text = grown(random);
            (0..random.between(1, 3)).for_each(|_| damage(&mut text, random));
            text
        }
        14..18 => pieces(random),
        18 => (0..random.between(1, 12)).map(|_| random.below(128) as u8).collect(),
        _ => (0..random.between(1, 40)).map(|_| random.below(256) as u8).collect(),
    }
}

fn size(random: &mut Random) -> usize {
    match random.below(20) {
        0..14 => random.between(1, 20),
        14..19 => random.between(20, 80),
        _ => random.between(80, 300),
    }
}

/// A script or any words, apart or not.
fn grown(random: &mut Random) -> Vec<u8> {
    let size = size(random);
    let words = if random.once_in(4) { any_words(random, size) } else { script(FIRST, random, size) };
    let gaps = random.pick(&[Gaps::Needed, Gaps::Blanks, Gaps::Blanks, Gaps::Careless]);
    printed(&words, gaps, random)
}

/// What stands between words.
#[derive(Clone, Copy, PartialEq, Eq)]
pub enum Gaps {
    /// Blanks only where two words would not stay apart.
    Needed,
    /// Blanks anywhere, and where they are needed.
    Blanks,
    /// Blanks anywhere, but not always where they are needed.
    Careless,
}

/// Whether two words that touch may read as others.
fn touch(last: u8, first: u8) -> bool {
    let wordlike = |byte: u8| byte.is_ascii_alphanumeric() || byte == b'_' || byte == b'.';
    wordlike(last) && wordlike(first) || b"=!<>".contains(&last) && first == b'='
}

pub fn printed(words: &[Word], gaps: Gaps, random: &mut Random) -> Vec<u8> {
    let mut text = Vec::new();
    for word in words {
        let lexeme = word.lexeme.as_bytes();
        let needed = text.last().is_some_and(|last| touch(*last, lexeme[0]));
        let most = if gaps == Gaps::Needed { 1 } else { random.pick(&[1, 2, 5]) };
        let least = (needed && gaps != Gaps::Careless) as usize;
        let count = if gaps == Gaps::Needed { least } else { least + random.below(most) };
        text.extend((0..count).map(|_| random.pick(b" \t\x0C\r\n")));
        text.extend(lexeme);
    }
    if gaps != Gaps::Needed {
        text.extend((0..random.below(3)).map(|_| random.pick(b" \t\x0C\r\n")));
    }
    text
}

/// A byte that is likely to matter.
fn byte(random: &mut Random) -> u8 {
    match random.below(4) {
        0 => random.below(256) as u8,
        1 => random.below(128) as u8,
        _ => random.pick(ALPHABET),
    }
}

/// A byte changed, put in or taken out, a part taken out or doubled, or the end cut off.
pub fn damage(text: &mut Vec<u8>, random: &mut Random) {
    if text.is_empty() {
        return text.push(byte(random));
    }
    let place = random.below(text.len());
    let end = random.between(place, text.len().min(place + 10));
    match random.below(8) {
        0 | 1 => text[place] = byte(random),
        2 | 3 => text.insert(place, byte(random)),
        4 => drop(text.remove(place)),
        5 => drop(text.drain(place..end)),
        6 => {
            let part = text[place..end].to_vec();
            drop(text.splice(place..place, part));
        }
        _ => text.truncate(place),
    }
}

#[rustfmt::skip]
const PIECES: &[&str] = &[
    "1", "0", "12", ".", "1.", "e", "E", "e+", "e-", "1e", "1.5", "5e5", "+", "-", "x", "_", "a", "\"", "\"", "\"\"", "\"a\"",
    "\\", "\\\"", "\\\\", "\\\n", "\\n", "\n", "\r", "\t", "\x0C", " ", "  ", "=", "==", "!", "!=", "<", ">", "<=", ">=",
    "and", "or", "not", "if", "el", "else", "for", "fun", "const", "con", "tinue", "continue", "re", "ref", "turn", "return",
    "import", "true", "nil", "let", "|", "#", "{", "}", "(", ")", ",", ":", ";", "/", "*", "^", "%",
];

/// Pieces of tokens in any order.
fn pieces(random: &mut Random) -> Vec<u8> {
    let numbers = random.once_in(2);
    let from = if numbers { &PIECES[..19] } else { PIECES };
    let mut text: String = (0..random.between(1, 12)).map(|_| random.pick(from)).collect();
    if random.once_in(20) {
        text.push(random.pick(&['$', '\u{80}', '\x0B', '\0']));
    }
    text.into_bytes()
}

/// A script of about 4,096 tokens.
fn many(random: &mut Random) -> Vec<u8> {
    let count = random.between(MAX_TOKENS - 3, MAX_TOKENS + 1);
    let words = script_of(FIRST, random, count);
    let gaps = random.pick(&[Gaps::Needed, Gaps::Blanks]);
    let mut text = printed(&words, gaps, random);
    if random.once_in(4) {
        damage(&mut text, random);
    }
    text
}

/// A text of about 65,536 bytes: a script, and blanks, a name, a number or a string put in.
fn long(random: &mut Random) -> Vec<u8> {
    let size = random.between(1, 400);
    let words = script(FIRST, random, size);
    let mut text = printed(&words, Gaps::Blanks, random);
    let more = random.between(MAX_TEXT - 2, MAX_TEXT + 1).saturating_sub(text.len());
    let place = random.below(text.len() + 1);
    let filling: Vec<u8> = match random.below(4) {
        0 => vec![b'a'; more],
        1 => vec![b'4'; more],
        2 => [&b"\""[..], &vec![b'q'; more.saturating_sub(2)], b"\""].concat(),
        _ => (0..more).map(|_| random.pick(b" \t\x0C\r\n")).collect(),
    };
    drop(text.splice(place..place, filling));
    if random.once_in(3) {
        damage(&mut text, random);
    }
    text.truncate(MAX_TEXT + 1);
    text
}
