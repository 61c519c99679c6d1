//! The kinds of tokens by number: names, fixed spellings, and which lexeme fits which kind.
use kaori::syntax::token::Token;

/// `Token` in its own order, so that a kind's number is its place.
#[rustfmt::skip]
pub const TOKENS: [Token; 45] = {
    use Token::*;
    [
        Assign, Plus, Minus, Multiply, Caret, Divide, Modulo, NotEqual, Equal, GreaterEqual, LessEqual,
        Greater, Less, Comma, Colon, Dot, Pipe, LeftParen, RightParen, Hash, LeftBrace, RightBrace, And,
        Or, Not, Let, Const, Ref, Function, For, While, Break, Continue, If, Else, Return, Import, True,
        False, Nil, NumberLiteral, Semicolon, StringLiteral, Identifier, Eof,
    ]
};

#[rustfmt::skip]
const SPELLINGS: [&str; 42] = [
    "=", "+", "-", "*", "^", "/", "%", "!=", "==", ">=", "<=", ">", "<", ",", ":", ".", "|", "(", ")", "#",
    "{", "}", "and", "or", "not", "let", "const", "ref", "fun", "for", "while", "break", "continue", "if",
    "else", "return", "import", "true", "false", "nil", "", ";",
];

pub const NUMBER: u8 = Token::NumberLiteral as u8;
pub const STRING: u8 = Token::StringLiteral as u8;
pub const IDENTIFIER: u8 = Token::Identifier as u8;
pub const EOF: u8 = Token::Eof as u8;
pub const SEMICOLON: u8 = Token::Semicolon as u8;
pub const RIGHT_PAREN: u8 = Token::RightParen as u8;
/// The kinds that no guard may have: document 02, L9, 'No token may be `{`, `if`, `|` or `#`'.
pub const OUTSIDE: [u8; 4] = [Token::LeftBrace as u8, Token::If as u8, Token::Pipe as u8, Token::Hash as u8];

/// The fixed spelling of a kind, if it has one.
pub fn spelling(kind: u8) -> Option<&'static str> {
    SPELLINGS.get(kind as usize).copied().filter(|spelling| !spelling.is_empty())
}

pub fn is_keyword(lexeme: &[u8]) -> bool {
    SPELLINGS[Token::And as usize..=Token::Nil as usize].iter().any(|word| word.as_bytes() == lexeme)
}

/// A kind's name in `Token`, or its number.
pub fn name(kind: u8) -> String {
    match TOKENS.get(kind as usize) {
        Some(token) => format!("{token:?}"),
        None => format!("kind {kind}"),
    }
}

/// Whether a lexeme may stand under a kind from 0 to 44.
pub fn fits(kind: u8, lexeme: &[u8]) -> bool {
    match kind {
        NUMBER => is_number(lexeme),
        STRING => is_string(lexeme),
        IDENTIFIER => is_word(lexeme) && !is_keyword(lexeme),
        EOF => true,
        _ => spelling(kind).is_some_and(|spelling| spelling.as_bytes() == lexeme),
    }
}

/// `[0-9]+(\.[0-9]+)?([eE][+-]?[0-9]+)?`
fn is_number(lexeme: &[u8]) -> bool {
    let Some(mut rest) = after_digits(lexeme) else { return false };
    if let [b'.', fraction @ ..] = rest {
        let Some(after) = after_digits(fraction) else { return false };
        rest = after;
    }
    if let [b'e' | b'E', exponent @ ..] = rest {
        let digits = match exponent {
            [b'+' | b'-', digits @ ..] => digits,
            digits => digits,
        };
        let Some(after) = after_digits(digits) else { return false };
        rest = after;
    }
    rest.is_empty()
}

fn after_digits(bytes: &[u8]) -> Option<&[u8]> {
    let digits = bytes.iter().take_while(|byte| byte.is_ascii_digit()).count();
    (digits > 0).then(|| &bytes[digits..])
}

/// `"([^"\\]|\\.)*"`, where `.` is any byte but 10.
fn is_string(lexeme: &[u8]) -> bool {
    let inside = lexeme.strip_prefix(b"\"").and_then(|rest| rest.strip_suffix(b"\""));
    let Some(inside) = inside else { return false };
    let mut bytes = inside.iter();
    while let Some(byte) = bytes.next() {
        match byte {
            b'"' => return false,
            b'\\' if matches!(bytes.next(), None | Some(10)) => return false,
            _ => {}
        }
    }
    true
}

/// `[a-zA-Z_][a-zA-Z0-9_]*`
fn is_word(lexeme: &[u8]) -> bool {
    let letter = |byte: &u8| byte.is_ascii_alphabetic() || *byte == b'_';
    lexeme.first().is_some_and(letter) && lexeme.iter().all(|byte| letter(byte) || byte.is_ascii_digit())
}

#[cfg(test)]
mod tests {
    use super::*;

    #[test]
    fn numbers_are_places() {
        assert!(TOKENS.iter().enumerate().all(|(place, token)| *token as usize == place));
    }

    #[test]
    fn patterns() {
        for good in ["0", "12", "1.5", "1e9", "1E+9", "1.0e-10"] {
            assert!(is_number(good.as_bytes()), "{good}");
        }
        for bad in ["", ".5", "1.", "1e", "1e+", "1.e5", "1x", "+1", "1.2.3"] {
            assert!(!is_number(bad.as_bytes()), "{bad}");
        }
        for good in [r#""""#, r#""a""#, r#""\"""#, r#""\\""#, "\"\n\""] {
            assert!(is_string(good.as_bytes()), "{good}");
        }
        for bad in ["", "\"", "a", r#""\""#, r#""a"b""#, "\"\\\n\""] {
            assert!(!is_string(bad.as_bytes()), "{bad}");
        }
    }
}
