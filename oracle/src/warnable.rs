//! Random scripts that meet the rules of warnings often, and nearly meet them as often; and all short ones.
use kaori::syntax::token::{Span, Token};

use crate::{
    judge::{Said, ask},
    kinds::{STRING, TOKENS},
    list::{Word, words},
    random::Random,
    scripts,
    terms::SECOND,
    texts::{Gaps, printed},
};

/// The text of a random script. It can be too deep, and an import at the end of a block can want its `;`.
pub fn text(edition: u32, random: &mut Random) -> Vec<u8> {
    let size = random.pick(&[4, 7, 12, 25, 60, 150]);
    let list = match random.below(5) {
        0 => scripts::script(edition, random, size),
        _ => {
            let mut writer = Writer { edition, random, words: Vec::new() };
            writer.statements(size, false);
            writer.words
        }
    };
    match random.below(4) {
        0 => printed(&list, Gaps::Needed, random),
        1 => printed(&list, Gaps::Blanks, random),
        _ => spaced(&list, random),
    }
}

/// A blank between all words, and now and then the end of a line.
fn spaced(list: &[Word], random: &mut Random) -> Vec<u8> {
    let times = random.pick(&[3, 8, 30]);
    let mut text = Vec::new();
    for word in list {
        let end = random.pick(&["\n", "\n", "\r\n", "\r", "\n  ", " \r\n\t", "\n\n", "\r\r\n"]);
        text.extend(if random.once_in(times) { end } else { " " }.bytes());
        text.extend(word.lexeme.bytes());
    }
    text
}

struct Writer<'r> {
    edition: u32,
    random: &'r mut Random,
    words: Vec<Word>,
}

const OPERATORS: [&str; 16] =
    ["and", "and", "and", "or", "or", "or", "+", "+", "-", "-", "*", "==", "<", "and", "or", "/"];

const STRINGS: [&str; 14] = [
    "\"\"",
    "\"a\"",
    "\"\n\"",
    "\"\r\"",
    "\"\r\n\"",
    "\"a\nb\"",
    "\"\\\r\"",
    "\"\\\\\n\"",
    "\"\\n\"",
    "\"\\r\"",
    "\"not a and b\"",
    "\"(\"",
    "\"}\n+\"",
    "\"\\\"\t\x0C\x0B\"",
];

impl Writer<'_> {
    fn push(&mut self, spellings: &str) {
        self.words.extend(words(spellings));
    }

    fn name(&mut self) {
        let name = self.random.pick(&["a", "b", "c", "x", "nota", "order"]);
        self.push(name);
    }

    /// Statements of about this size; those of a block may leave out the last `;`.
    fn statements(&mut self, size: usize, in_block: bool) {
        let end = self.words.len() + size;
        let mut is_open = false; // the one before ends at a `}`
        while self.words.len() < end {
            let left = end - self.words.len();
            let share = if self.random.once_in(2) { left } else { 1 + self.random.below(left) };
            let ends_open = if is_open && !self.random.once_in(3) {
                let sign = self.random.pick(&["+", "-", "^", "(", "not"]);
                self.push(sign);
                self.expression(share.saturating_sub(1));
                if sign == "(" {
                    self.push(")");
                }
                false
            } else {
                self.statement(share)
            };
            let is_last = in_block && self.words.len() >= end;
            let leaves = if ends_open { !self.random.once_in(5) } else { is_last && self.random.once_in(2) };
            if !leaves {
                self.push(";");
            }
            is_open = ends_open && leaves;
        }
    }

    /// Whether the statement needs no `;`.
    fn statement(&mut self, size: usize) -> bool {
        match self.random.below(13) {
            0 => self.block(size),
            1 | 2 => self.conditional(size),
            3 => {
                self.push("while");
                self.expression(size / 2);
                self.block(size / 2);
            }
            4 => {
                self.push("fun f(a, b)");
                self.block(size);
            }
            5 | 6 => {
                self.push("let x =");
                self.expression(size);
                return false;
            }
            7 => {
                self.expression(size / 2);
                self.push("=");
                self.expression(size / 2);
                return false;
            }
            8 => {
                self.push("return");
                if self.edition != SECOND || self.random.once_in(2) {
                    self.expression(size);
                }
                return false;
            }
            9 => {
                let words =
                    self.random.pick(&["import a", "import a.b", "import a: b, c", "break", "continue"]);
                self.push(words);
                return false;
            }
            _ => {
                self.expression(size);
                return false;
            }
        }
        true
    }

    fn block(&mut self, size: usize) {
        self.push("{");
        self.statements(size.saturating_sub(2), true);
        self.push("}");
    }

    fn conditional(&mut self, size: usize) {
        self.push("if");
        self.expression(size / 2);
        self.block(size / 4);
        match self.random.below(4) {
            0 => {
                self.push("else");
                self.block(size / 4);
            }
            1 => {
                self.push("else");
                self.conditional(size / 2);
            }
            _ => {}
        }
    }

    fn expression(&mut self, size: usize) {
        let end = self.words.len() + size;
        loop {
            let left = end.saturating_sub(self.words.len());
            let share = if self.random.once_in(2) { left } else { left / 3 };
            self.operand(share);
            if self.words.len() + 1 >= end || self.random.once_in(6) {
                return;
            }
            let operator = self.random.pick(&OPERATORS);
            self.push(operator);
        }
    }

    fn operand(&mut self, size: usize) {
        if size < 2 {
            return self.leaf();
        }
        match self.random.below(20) {
            0..5 => {
                self.push("not");
                self.operand(size - 1); // what follows is taken or is not, as the edition has it
            }
            5 | 6 => {
                let sign = self.random.pick(&["-", "^", "+"]);
                self.push(sign);
                self.operand(size - 1);
            }
            7..10 => {
                self.push("(");
                self.expression(size - 1);
                self.push(")");
                if self.edition == SECOND && self.random.once_in(3) {
                    self.chain(size / 2);
                }
            }
            10..12 => self.conditional(size),
            12..15 => {
                let names = self.random.pick(&["| |", "|a|", "|a, b|"]);
                self.push(names);
                if self.random.once_in(4) {
                    self.block(size);
                } else {
                    self.expression(size);
                }
            }
            15 => self.block(size),
            16 => {
                self.push("#{");
                for _ in 0..self.random.below(3) {
                    self.expression(size / 3);
                    if self.random.once_in(2) {
                        self.push(":");
                        self.expression(size / 3);
                    }
                    self.push(",");
                }
                self.push("}");
            }
            17 => self.leaf(),
            _ => {
                self.name();
                self.chain(size);
            }
        }
    }

    fn chain(&mut self, size: usize) {
        for _ in 0..self.random.between(1, 2) {
            if self.random.once_in(3) {
                self.push(".");
                self.name();
                continue;
            }
            self.push("(");
            for _ in 0..self.random.below(3) {
                self.expression(size / 4);
                self.push(",");
            }
            self.push(")");
        }
    }

    fn leaf(&mut self) {
        match self.random.below(6) {
            0 => {
                let string = self.random.pick(&STRINGS);
                self.words.push(Word::new(STRING, string));
            }
            1 => {
                let word = self.random.pick(&["1", "nil", "true"]);
                self.push(word);
            }
            _ => self.name(),
        }
    }
}

/// What short scripts are made of.
const PIECES: [Token; 12] = [
    Token::Not,
    Token::And,
    Token::Identifier,
    Token::LeftParen,
    Token::RightParen,
    Token::If,
    Token::LeftBrace,
    Token::RightBrace,
    Token::Pipe,
    Token::Plus,
    Token::Semicolon,
    Token::Hash,
];

/// All accepted scripts of at most so many of these tokens, each with ends of lines where it falls.
pub fn short(edition: u32, length: usize, random: &mut Random) -> Vec<Vec<u8>> {
    let mut found = Vec::new();
    grow(edition, length, &mut Vec::new(), &mut found);
    found.iter().map(|list| spaced(list, random)).collect()
}

/// Adds the scripts that go on from these words. The original says at which token it refuses them: before their end nothing helps.
fn grow(edition: u32, length: usize, list: &mut Vec<Word>, found: &mut Vec<Vec<Word>>) {
    let mut text = String::new();
    let mut tokens = Vec::new();
    for word in list.iter() {
        let start = text.len() as u32;
        text += &word.lexeme;
        tokens.push((TOKENS[word.kind as usize], Span { start, end: text.len() as u32 }));
        text += " ";
    }
    let end = text.len() as u32;
    tokens.push((Token::Eof, Span { start: end, end }));
    match ask(edition, &text, tokens) {
        Said::Whole => found.push(list.clone()),
        Said::Error(error) if error.span.start == end => {}
        _ => return,
    }
    if list.len() < length {
        for piece in PIECES {
            list.push(Word::plain(piece as u8));
            grow(edition, length, list, found);
            list.pop();
        }
    }
}
