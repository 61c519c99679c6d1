//! A reader of accepted scripts that keeps what a tree leaves out: which tokens a part was read from, and so its parentheses. The
//! judge of warnings asks it. Its rows are held to the original's.
use kaori::syntax::token::Token;

use crate::{
    case::Case,
    kinds::TOKENS,
    rows::{ABSENT, NODE_WIDTH, PARENT, Rows},
    terms::SECOND,
};

/// From a token up to another, which no longer belongs to it.
pub type Extent = (usize, usize);

/// What a script is made of, each part by its tokens.
#[derive(Default)]
pub struct Grouping {
    /// The `not` and what it took.
    pub nots: Vec<Extent>,
    /// The condition of an `if`, with the `if`.
    pub conditions: Vec<Extent>,
    /// A statement without its `;`.
    pub statements: Vec<Extent>,
    /// The `(` of a call.
    pub calls: Vec<usize>,
    /// A `+` or `-` between two operands.
    pub sums: Vec<usize>,
    /// The kind and the parent of each row.
    rows: Vec<(u32, u32)>,
}

impl Grouping {
    /// The script is accepted.
    pub fn of(edition: u32, case: &Case) -> Grouping {
        let kinds = case.tokens.iter().map(|token| TOKENS[token.kind as usize]).collect();
        let mut reader = Reader { edition, kinds, at: 0, found: Grouping::default() };
        let mut statements = Vec::new();
        while reader.kind() != Token::Eof {
            statements.push(reader.statement());
        }
        reader.row(20, &statements);
        reader.found
    }

    /// Whether these are the original's rows.
    pub fn has(&self, rows: &Rows) -> bool {
        let same = |(mine, row): (&(u32, u32), &[u32; NODE_WIDTH])| *mine == (row[0], row[PARENT]);
        self.rows.len() == rows.nodes.len() && self.rows.iter().zip(&rows.nodes).all(same)
    }
}

struct Reader {
    edition: u32,
    kinds: Vec<Token>,
    at: usize,
    found: Grouping,
}

/// The operators from the loosest level to the tightest.
const LEVELS: [&[Token]; 6] = [
    &[Token::Or],
    &[Token::And],
    &[Token::Equal, Token::NotEqual],
    &[Token::Greater, Token::GreaterEqual, Token::Less, Token::LessEqual],
    &[Token::Plus, Token::Minus],
    &[Token::Multiply, Token::Divide, Token::Modulo],
];

/// Each function reads a part and gives the number of its row.
impl Reader {
    fn kind(&self) -> Token {
        self.kinds[self.at]
    }

    fn takes(&mut self, kind: Token) -> bool {
        if self.kind() != kind {
            return false;
        }
        self.at += 1;
        true
    }

    fn take(&mut self, kind: Token) {
        assert!(self.takes(kind), "{kind:?} and not {:?} at token {}", self.kind(), self.at);
    }

    fn row(&mut self, kind: u32, children: &[usize]) -> usize {
        let number = self.found.rows.len();
        for child in children {
            self.found.rows[*child].1 = number as u32;
        }
        self.found.rows.push((kind, ABSENT));
        number
    }

    fn statement(&mut self) -> usize {
        let first = self.at;
        let row = match self.kind() {
            Token::LeftBrace => self.block(),
            Token::If => self.conditional(),
            Token::Function => {
                self.at += 2;
                self.names(Token::LeftParen, Token::RightParen);
                let block = self.block();
                self.row(18, &[block])
            }
            Token::While => {
                self.at += 1;
                let children = [self.expression(), self.block()];
                self.row(22, &children)
            }
            Token::Import => {
                while ![Token::Semicolon, Token::RightBrace].contains(&self.kind()) {
                    self.at += 1;
                }
                self.row(26, &[])
            }
            Token::Break => self.word(24),
            Token::Continue => self.word(25),
            Token::Return => {
                self.at += 1;
                if self.edition == SECOND && [Token::Semicolon, Token::RightBrace].contains(&self.kind()) {
                    self.row(23, &[])
                } else {
                    let value = self.expression();
                    self.row(23, &[value])
                }
            }
            kind @ (Token::Let | Token::Const | Token::Ref) => {
                self.at += 3;
                let value = self.expression();
                self.row(7 + kind as u32 - Token::Let as u32, &[value])
            }
            _ => {
                let left = self.expression();
                if self.takes(Token::Assign) {
                    let right = self.expression();
                    self.row(6, &[left, right])
                } else {
                    left
                }
            }
        };
        self.found.statements.push((first, self.at));
        self.takes(Token::Semicolon);
        row
    }

    fn word(&mut self, kind: u32) -> usize {
        self.at += 1;
        self.row(kind, &[])
    }

    fn names(&mut self, open: Token, close: Token) {
        self.take(open);
        while !self.takes(close) {
            self.at += 1;
        }
    }

    fn block(&mut self) -> usize {
        self.take(Token::LeftBrace);
        let mut statements = Vec::new();
        while !self.takes(Token::RightBrace) {
            statements.push(self.statement());
        }
        self.row(20, &statements)
    }

    fn conditional(&mut self) -> usize {
        let first = self.at;
        self.take(Token::If);
        let mut children = vec![self.expression()];
        self.found.conditions.push((first, self.at));
        children.push(self.block());
        if self.takes(Token::Else) {
            children.push(if self.kind() == Token::If { self.conditional() } else { self.block() });
        }
        self.row(21, &children)
    }

    fn expression(&mut self) -> usize {
        self.level(0)
    }

    fn level(&mut self, level: usize) -> usize {
        let Some(operators) = LEVELS.get(level) else { return self.prefix() };
        let mut left = self.level(level + 1);
        while operators.contains(&self.kind()) {
            let sign = self.kind();
            if matches!(sign, Token::Plus | Token::Minus) {
                self.found.sums.push(self.at);
            }
            self.at += 1;
            let right = self.level(level + 1);
            let kind = match sign {
                Token::And => 2,
                Token::Or => 3,
                _ => 1,
            };
            left = self.row(kind, &[left, right]);
        }
        left
    }

    fn prefix(&mut self) -> usize {
        let first = self.at;
        match self.kind() {
            Token::Plus => {
                self.at += 1;
                self.prefix()
            }
            Token::Minus | Token::Caret => {
                self.at += 1;
                let operand = self.prefix();
                self.row(5, &[operand])
            }
            Token::Not => {
                self.at += 1;
                let taken = if self.edition == SECOND { self.prefix() } else { self.expression() };
                self.found.nots.push((first, self.at));
                self.row(4, &[taken])
            }
            _ => self.primary(),
        }
    }

    fn primary(&mut self) -> usize {
        match self.kind() {
            Token::If => self.conditional(),
            Token::LeftBrace => self.block(),
            Token::Pipe => {
                self.names(Token::Pipe, Token::Pipe);
                let body = if self.kind() == Token::LeftBrace { self.block() } else { self.expression() };
                self.row(19, &[body])
            }
            Token::LeftParen => {
                self.at += 1;
                let inner = self.expression();
                self.take(Token::RightParen);
                if self.edition == SECOND { self.chain(inner) } else { inner }
            }
            Token::Hash => {
                self.at += 1;
                self.take(Token::LeftBrace);
                let mut parts = Vec::new();
                while !self.takes(Token::RightBrace) {
                    parts.push(self.expression());
                    if !self.takes(Token::Colon) {
                        self.takes(Token::Comma);
                    }
                }
                self.row(17, &parts)
            }
            Token::Identifier => {
                let name = self.word(10);
                self.chain(name)
            }
            Token::StringLiteral => self.word(11),
            Token::NumberLiteral => self.word(12),
            Token::True | Token::False => self.word(13),
            Token::Nil => self.word(14),
            other => panic!("an operand and not {other:?} at token {}", self.at),
        }
    }

    fn chain(&mut self, mut operand: usize) -> usize {
        loop {
            if self.takes(Token::Dot) {
                self.take(Token::Identifier);
                operand = self.row(16, &[operand]);
            } else if self.kind() == Token::LeftParen {
                self.found.calls.push(self.at);
                self.at += 1;
                let mut parts = vec![operand];
                while !self.takes(Token::RightParen) {
                    parts.push(self.expression());
                    self.takes(Token::Comma);
                }
                operand = self.row(15, &parts);
            } else {
                return operand;
            }
        }
    }
}
