//! Token lists by their lexemes, and how they become cases. The splitting of a script serves to write cases
//! down; nothing is judged by it.
use crate::{
    case::{Case, MAX_TEXT, Token},
    kinds::{EOF, IDENTIFIER, NUMBER, STRING, fits, spelling},
    random::Random,
};

#[derive(Clone, PartialEq, Eq, Debug)]
pub struct Word {
    pub kind: u8,
    pub lexeme: String,
}

impl Word {
    pub fn new(kind: u8, lexeme: impl Into<String>) -> Word {
        Word { kind, lexeme: lexeme.into() }
    }

    /// A kind with its fixed spelling, or with the plainest lexeme that fits it.
    pub fn plain(kind: u8) -> Word {
        let other = match kind {
            NUMBER => "1",
            STRING => "\"s\"",
            IDENTIFIER => "a",
            _ => "",
        };
        Word::new(kind, spelling(kind).unwrap_or(other))
    }
}

/// The case of a script as it stands, with an empty Eof at its end.
pub fn script(text: &str) -> Case {
    let mut tokens = Vec::new();
    let mut start = 0;
    while start < text.len() {
        if text.as_bytes()[start].is_ascii_whitespace() {
            start += 1;
            continue;
        }
        let (kind, length) =
            longest(&text[start..]).unwrap_or_else(|| panic!("no token: {}", &text[start..]));
        tokens.push(Token { kind, start: start as u32, end: (start + length) as u32 });
        start += length;
    }
    let end = text.len() as u32;
    tokens.push(Token { kind: EOF, start: end, end });
    Case { text: text.into(), tokens }
}

/// The words of a script.
pub fn words(text: &str) -> Vec<Word> {
    let case = script(text);
    let word = |token: &Token| Word::new(token.kind, &text[token.start as usize..token.end as usize]);
    case.tokens.iter().filter(|token| token.kind != EOF).map(word).collect()
}

/// No lexeme that is written down is longer.
const LONGEST: usize = 40;

/// The longest lexeme at the start of a text, by trying.
fn longest(text: &str) -> Option<(u8, usize)> {
    let kind_of = |length: usize| (0..EOF).find(|kind| fits(*kind, &text.as_bytes()[..length]));
    let lengths = (1..=text.len().min(LONGEST)).rev();
    lengths.into_iter().find_map(|length| kind_of(length).map(|kind| (kind, length)))
}

/// What stands between the tokens of a case.
#[derive(Clone, Copy)]
pub enum Gaps {
    None,
    Space,
    Blanks,
    /// Gaps are not examined: any bytes up to 127.
    Any,
}

impl Gaps {
    fn push(self, text: &mut Vec<u8>, random: &mut Random) {
        match self {
            Gaps::None => {}
            Gaps::Space => text.push(b' '),
            Gaps::Blanks => text.extend((0..random.below(4)).map(|_| random.pick(b" \t\x0C\r\n"))),
            Gaps::Any => text.extend((0..random.below(4)).map(|_| random.below(128) as u8)),
        }
    }
}

/// Words and a final Eof as a case. Words past what the text may hold are left out.
pub fn printed(words: &[Word], gaps: Gaps, random: &mut Random) -> Case {
    let mut case = Case::default();
    for word in words {
        gaps.push(&mut case.text, random);
        let start = case.text.len();
        if start + word.lexeme.len() > MAX_TEXT {
            case.text.truncate(MAX_TEXT);
            break;
        }
        case.text.extend(word.lexeme.bytes());
        case.tokens.push(Token { kind: word.kind, start: start as u32, end: case.text.len() as u32 });
    }
    if case.text.len() + 4 < MAX_TEXT {
        gaps.push(&mut case.text, random);
    }
    let end = case.text.len() as u32;
    case.tokens.push(Token { kind: EOF, start: end, end });
    case
}
