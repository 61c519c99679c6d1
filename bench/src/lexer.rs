//! A lexer of token.rs's patterns for the Rust side of the text columns, written by hand: one pass over the bytes.
//!
//! It is not logos, which Kaori has its lexer from. The oracle's lexer is not timed either: it is an automaton made from
//! token.rs, and slower than this one. `agree` in main.rs holds this one to it.
use kaori::syntax::token::{Span, Token};

/// The tokens of a text, Eof last, or the first byte where none starts.
pub fn tokens(source: &str) -> Result<Vec<(Token, Span)>, usize> {
    use Token::*;
    let text = source.as_bytes();
    let mut tokens = Vec::with_capacity(text.len() + 1);
    let mut at = 0;
    while let Some(&first) = text.get(at) {
        let rest = &text[at..];
        let equal = rest.get(1) == Some(&b'=');
        let (token, length) = match first {
            b' ' | b'\t' | b'\x0C' | b'\r' | b'\n' => {
                at += 1;
                continue;
            }
            b'a'..=b'z' | b'A'..=b'Z' | b'_' => {
                let length = count(rest, |byte| byte.is_ascii_alphanumeric() || byte == b'_');
                (word(&rest[..length]), length)
            }
            b'0'..=b'9' => (NumberLiteral, number(rest)),
            b'"' => (StringLiteral, string(rest).ok_or(at)?),
            b'=' if equal => (Equal, 2),
            b'!' if equal => (NotEqual, 2),
            b'>' if equal => (GreaterEqual, 2),
            b'<' if equal => (LessEqual, 2),
            b'=' => (Assign, 1),
            b'>' => (Greater, 1),
            b'<' => (Less, 1),
            b'+' => (Plus, 1),
            b'-' => (Minus, 1),
            b'*' => (Multiply, 1),
            b'^' => (Caret, 1),
            b'/' => (Divide, 1),
            b'%' => (Modulo, 1),
            b',' => (Comma, 1),
            b':' => (Colon, 1),
            b'.' => (Dot, 1),
            b'|' => (Pipe, 1),
            b'(' => (LeftParen, 1),
            b')' => (RightParen, 1),
            b'#' => (Hash, 1),
            b'{' => (LeftBrace, 1),
            b'}' => (RightBrace, 1),
            b';' => (Semicolon, 1),
            _ => return Err(at),
        };
        tokens.push((token, Span::from(at..at + length)));
        at += length;
    }
    tokens.push((Eof, Span::from(at..at)));
    Ok(tokens)
}

/// How many bytes are of a kind, from the first on.
fn count(text: &[u8], kind: impl Fn(u8) -> bool) -> usize {
    text.iter().position(|byte| !kind(*byte)).unwrap_or(text.len())
}

fn digits(text: &[u8]) -> usize {
    count(text, |byte| byte.is_ascii_digit())
}

fn word(text: &[u8]) -> Token {
    use Token::*;
    match text {
        b"and" => And,
        b"or" => Or,
        b"not" => Not,
        b"let" => Let,
        b"const" => Const,
        b"ref" => Ref,
        b"fun" => Function,
        b"for" => For,
        b"while" => While,
        b"break" => Break,
        b"continue" => Continue,
        b"if" => If,
        b"else" => Else,
        b"return" => Return,
        b"import" => Import,
        b"true" => True,
        b"false" => False,
        b"nil" => Nil,
        _ => Identifier,
    }
}

/// The length of the number that a text starts with.
fn number(text: &[u8]) -> usize {
    let mut length = digits(text);
    if let [b'.', b'0'..=b'9', ..] = text[length..] {
        length += 1 + digits(&text[length + 1..]);
    }
    match text[length..] {
        [b'e' | b'E', b'0'..=b'9', ..] => length + 1 + digits(&text[length + 1..]),
        [b'e' | b'E', b'+' | b'-', b'0'..=b'9', ..] => length + 2 + digits(&text[length + 2..]),
        _ => length,
    }
}

/// The length of the string that a text starts with, if it ends.
fn string(text: &[u8]) -> Option<usize> {
    let mut at = 1;
    loop {
        match text[at..] {
            [b'"', ..] => return Some(at + 1),
            [b'\\', b'\n', ..] | [b'\\'] | [] => return None,
            [b'\\', _, ..] => at += 2,
            _ => at += 1,
        }
    }
}
