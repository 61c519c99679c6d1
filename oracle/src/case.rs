//! An input of `rows`: a text and its tokens, and how they stand in the input.

#[derive(Clone, Copy, PartialEq, Eq, Debug)]
pub struct Token {
    pub kind: u8,
    pub start: u32,
    pub end: u32,
}

#[derive(Clone, PartialEq, Eq, Debug, Default)]
pub struct Case {
    pub text: Vec<u8>,
    pub tokens: Vec<Token>,
}

pub const MAX_TEXT: usize = 8_192;
pub const MAX_TOKENS: usize = 512;

const TEXT_MARK: [u8; 2] = *b"KS";
const TOKEN_MARK: [u8; 2] = *b"KT";

impl Case {
    pub fn encode(&self) -> Vec<u8> {
        let mut bytes = TEXT_MARK.to_vec();
        bytes.extend((self.text.len() as u32).to_le_bytes());
        bytes.extend(&self.text);
        for token in &self.tokens {
            bytes.extend(TOKEN_MARK);
            bytes.push(token.kind);
            bytes.extend(token.start.to_le_bytes());
            bytes.extend(token.end.to_le_bytes());
        }
        bytes
    }

    /// None: a broken record, too long a text, too many tokens.
    pub fn decode(bytes: &[u8]) -> Option<Case> {
        let mut rest = bytes;
        let mut case = Case::default();
        mark(&mut rest, TEXT_MARK)?;
        let length = number(&mut rest)? as usize;
        if length > MAX_TEXT {
            return None;
        }
        case.text = rest.split_off(..length)?.to_vec();
        while !rest.is_empty() {
            if case.tokens.len() == MAX_TOKENS {
                return None;
            }
            mark(&mut rest, TOKEN_MARK)?;
            let kind = *rest.split_off_first()?;
            let start = number(&mut rest)?;
            let end = number(&mut rest)?;
            case.tokens.push(Token { kind, start, end });
        }
        Some(case)
    }

    /// A token's lexeme, if its span lies in the text.
    pub fn lexeme(&self, token: Token) -> Option<&[u8]> {
        self.text.get(token.start as usize..token.end as usize)
    }
}

fn mark(rest: &mut &[u8], expected: [u8; 2]) -> Option<()> {
    (rest.split_off(..2)? == expected).then_some(())
}

/// The next four bytes as a number.
pub fn number(rest: &mut &[u8]) -> Option<u32> {
    rest.split_off(..4)?.try_into().ok().map(u32::from_le_bytes)
}
