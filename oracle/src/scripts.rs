//! Random scripts: the grammar of document 01 read as a way to write, and for edition 2 with the changes of request L14, which
//! then stand everywhere.
use kaori::syntax::token::Token;

use crate::{
    kinds::{IDENTIFIER, NUMBER, STRING, is_keyword},
    list::{Word, words},
    random::Random,
    terms::SECOND,
};

/// Where names come from.
#[derive(Clone, Copy, PartialEq)]
enum Names {
    Few,
    Many,
}

struct Writer<'r> {
    edition: u32,
    is_guard: bool,
    random: &'r mut Random,
    names: Names,
    words: Vec<Word>,
}

/// A script of about so many words.
pub fn script(edition: u32, random: &mut Random, size: usize) -> Vec<Word> {
    let names = random.pick(&[Names::Few, Names::Many]);
    let mut writer = Writer { edition, is_guard: false, random, names, words: Vec::new() };
    while writer.words.len() < size {
        let left = size - writer.words.len();
        let share = if writer.random.once_in(3) { left } else { 1 + writer.random.below(left) };
        let takes_semicolon = writer.statement(share);
        if takes_semicolon || writer.random.once_in(4) {
            writer.push(";");
        }
    }
    writer.words
}

/// An expression of about so many words; that of a guard has no token outside the profile.
pub fn expression(edition: u32, is_guard: bool, random: &mut Random, size: usize) -> Vec<Word> {
    let names = random.pick(&[Names::Few, Names::Many]);
    let mut writer = Writer { edition, is_guard, random, names, words: Vec::new() };
    writer.expression(size);
    writer.words
}

/// A script of exactly so many words, which are not 1.
pub fn script_of(edition: u32, random: &mut Random, size: usize) -> Vec<Word> {
    let mut list = script(edition, random, size.saturating_sub(20));
    while list.len() > size || size - list.len() == 1 {
        list = script(edition, random, size.saturating_sub(20) / 2);
    }
    while list.len() < size {
        let left = size - list.len();
        list.extend(words(if left == 2 || left > 3 && random.once_in(2) { "a;" } else { "{b}" }));
    }
    list
}

/// In edition 2 `not` (2), signs, parentheses (6) and chains come more often.
const SECOND_OPERANDS: [usize; 20] = [0, 1, 2, 2, 2, 2, 2, 3, 4, 6, 6, 6, 6, 6, 8, 9, 11, 12, 12, 13];

/// In a guard signs, `not`, parentheses, leaves and chains.
const GUARD_OPERANDS: [usize; 10] = [0, 1, 2, 2, 6, 6, 11, 12, 12, 12];

const BINARY: [&str; 13] = ["or", "and", "==", "!=", ">", ">=", "<", "<=", "+", "-", "*", "/", "%"];

impl Writer<'_> {
    fn push(&mut self, spellings: &str) {
        self.words.extend(words(spellings));
    }

    fn name(&mut self) {
        let name = name(self.random, self.names);
        self.words.push(Word::new(IDENTIFIER, name));
    }

    /// True if the statement has to take a `;` where its block does not end.
    fn statement(&mut self, size: usize) -> bool {
        match self.random.below(16) {
            0 => self.import(),
            1 => {
                self.block(size);
                return false;
            }
            2 | 3 => {
                self.conditional(size);
                return false;
            }
            4 => {
                self.push("fun");
                self.name();
                self.push("(");
                self.name_list();
                self.push(")");
                self.block(size.saturating_sub(6));
                return false;
            }
            5 => {
                self.push("while");
                self.expression(size / 3);
                self.block(size / 2);
                return false;
            }
            6 => self.push("break"),
            7 => self.push("continue"),
            8 => {
                self.push("return");
                if self.edition != SECOND || self.random.once_in(2) {
                    self.expression(size.saturating_sub(2));
                }
            }
            9 | 10 => {
                let word = self.random.pick(&["let", "const", "ref"]);
                self.push(word);
                self.name();
                self.push("=");
                self.expression(size.saturating_sub(4));
            }
            11 | 12 => {
                self.expression(size / 2);
                self.push("=");
                self.expression(size / 2);
            }
            _ if self.edition == SECOND && self.random.once_in(4) => self.push("return"),
            _ => self.expression(size.saturating_sub(1)),
        }
        true
    }

    fn import(&mut self) {
        self.push("import");
        self.name();
        while self.random.once_in(3) {
            self.push(".");
            self.name();
        }
        if self.random.once_in(2) {
            self.push(":");
            self.name_list();
        }
    }

    fn block(&mut self, size: usize) {
        self.push("{");
        let end = self.words.len() + size.saturating_sub(2);
        while self.words.len() < end {
            let left = end - self.words.len();
            let share = 1 + self.random.below(left);
            let needs = self.statement(share);
            let is_last = self.words.len() >= end;
            let takes = if is_last { self.random.once_in(2) } else { needs || self.random.once_in(4) };
            if takes {
                self.push(";");
            }
        }
        self.push("}");
    }

    fn conditional(&mut self, size: usize) {
        self.push("if");
        self.expression(size / 4);
        self.block(size / 3);
        match self.random.below(4) {
            0 => {
                self.push("else");
                self.block(size / 3);
            }
            1 => {
                self.push("else");
                self.conditional(size / 2);
            }
            _ => {}
        }
    }

    /// Names parted by commas, perhaps with one after the last.
    fn name_list(&mut self) {
        let count = self.random.below(4);
        for place in 0..count {
            self.name();
            self.separator(place + 1 == count);
        }
    }

    fn separator(&mut self, is_last: bool) {
        if !is_last || self.random.once_in(3) {
            self.push(",");
        }
    }

    fn expression(&mut self, size: usize) {
        let end = self.words.len() + size;
        let same = self.random.once_in(4).then(|| self.random.pick(&BINARY));
        loop {
            let left = end.saturating_sub(self.words.len());
            let share = if self.random.once_in(2) { left } else { left / 3 };
            self.operand(share);
            if self.words.len() + 2 > end || self.random.once_in(5) {
                return;
            }
            let operator = same.unwrap_or_else(|| self.random.pick(&BINARY));
            self.push(operator);
        }
    }

    fn operand(&mut self, size: usize) {
        if size < 2 {
            return self.leaf();
        }
        let sort = match self.edition {
            _ if self.is_guard => self.random.pick(&GUARD_OPERANDS),
            SECOND => self.random.pick(&SECOND_OPERANDS),
            _ => self.random.below(14),
        };
        match sort {
            0 | 1 => {
                let sign = self.random.pick(&["-", "^", "+"]);
                self.push(sign);
                self.operand(size - 1);
            }
            2 => {
                self.push("not");
                match self.edition {
                    SECOND => self.operand(size - 1),
                    _ => self.expression(size - 1),
                }
            }
            3 => self.conditional(size),
            4 | 5 => self.lambda(size),
            6 | 7 => {
                let end = self.words.len() + size;
                self.push("(");
                if self.edition != SECOND {
                    self.expression(size - 2);
                    return self.push(")");
                }
                self.expression(size.div_ceil(2) - 1);
                self.push(")");
                self.calls(end, size / 2);
            }
            8 => self.block(size),
            9 | 10 => self.map(size),
            11 => self.leaf(),
            _ => self.chain(size),
        }
    }

    fn lambda(&mut self, size: usize) {
        self.push("|");
        self.name_list();
        self.push("|");
        if self.random.once_in(2) {
            self.block(size.saturating_sub(4));
        } else {
            self.expression(size.saturating_sub(4));
        }
    }

    fn map(&mut self, size: usize) {
        self.push("#{");
        let count = self.random.below(4);
        for place in 0..count {
            self.expression(size / (2 * count));
            if self.random.once_in(2) {
                self.push(":");
                self.expression(size / (2 * count));
            }
            self.separator(place + 1 == count);
        }
        self.push("}");
    }

    fn chain(&mut self, size: usize) {
        let end = self.words.len() + size;
        self.name();
        self.calls(end, size);
    }

    /// Calls and properties up to about this place, with arguments of about this size.
    fn calls(&mut self, end: usize, size: usize) {
        while self.words.len() < end && !self.random.once_in(4) {
            if self.random.once_in(2) {
                self.push(".");
                self.name();
                continue;
            }
            self.push("(");
            let count = self.random.below(4);
            for place in 0..count {
                self.expression(size / (count + 1));
                self.separator(place + 1 == count);
            }
            self.push(")");
        }
    }

    fn leaf(&mut self) {
        let word = match self.random.below(10) {
            0 => Word::plain(Token::True as u8),
            1 => Word::plain(Token::False as u8),
            2 => Word::plain(Token::Nil as u8),
            3 | 4 => Word::new(NUMBER, number(self.random)),
            5 | 6 => Word::new(STRING, string(self.random)),
            _ => return self.name(),
        };
        self.words.push(word);
    }
}

const FEW: [&str; 8] = ["a", "b", "c", "f", "x", "y", "_", "android"];

/// A name of any sort.
pub fn any_name(random: &mut Random) -> String {
    let names = random.pick(&[Names::Few, Names::Many]);
    name(random, names)
}

fn name(random: &mut Random, names: Names) -> String {
    if names == Names::Few {
        return random.pick(&FEW).to_string();
    }
    let first = b"abcdefghijklmnopqrstuvwxyzABCDEFGHIJKLMNOPQRSTUVWXYZ_";
    let later = b"abcdeXYZ_0123456789";
    let length = if random.once_in(20) { random.below(60) } else { random.below(8) };
    let mut name = String::from(random.pick(first) as char);
    name.extend((0..length).map(|_| random.pick(later) as char));
    if is_keyword(name.as_bytes()) {
        name.push('_');
    }
    name
}

fn digits(random: &mut Random) -> String {
    let length = if random.once_in(10) { random.between(10, 40) } else { random.between(1, 3) };
    (0..length).map(|_| random.pick(b"0123456789") as char).collect()
}

fn number(random: &mut Random) -> String {
    let mut number = digits(random);
    if random.once_in(2) {
        number += ".";
        number += &digits(random);
    }
    if random.once_in(2) {
        number += random.pick(&["e", "E", "e+", "E+", "e-", "E-"]);
        number += &digits(random);
    }
    number
}

fn string(random: &mut Random) -> String {
    let inside = match random.below(4) {
        0 => String::new(),
        1 => random.pick(&FEW).to_string(),
        _ => (0..random.below(8)).map(|_| string_part(random)).collect(),
    };
    format!("\"{inside}\"")
}

fn string_part(random: &mut Random) -> String {
    match random.below(8) {
        0 => random.pick(&["\\\"", "\\\\", "\\n", "\\ ", "\\\r", "\\\0"]).to_string(),
        1 => random.pick(&["\n", "\t", "//", "{", "for", ";"]).to_string(),
        _ => String::from((32 + random.below(95) as u8) as char).replace(['"', '\\'], "z"),
    }
}

/// A list of any words, each with a lexeme that fits.
pub fn any_words(random: &mut Random, count: usize) -> Vec<Word> {
    (0..count).map(|_| any_word(random)).collect()
}

pub fn any_word(random: &mut Random) -> Word {
    match random.below(44) as u8 {
        NUMBER => Word::new(NUMBER, number(random)),
        STRING => Word::new(STRING, string(random)),
        IDENTIFIER => Word::new(IDENTIFIER, name(random, Names::Few)),
        kind => Word::plain(kind),
    }
}
