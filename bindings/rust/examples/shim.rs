//! Stands where `Parser::new(source, tokens, compiler).parse()` stood: the same tokens go in, and a tree comes out that is the
//! program's own, with a node for each id, the program's symbols and numbers as values. `Interner` and `Error` are stand-ins for
//! the program's; so is `Kind` for its `Token`, which has the same numbers. bindings/README.md says what differs.
use std::collections::HashMap;

use kaori_syntax::{BinaryOp, Kind, Name, Node as Read, Refusal, Rooms, Row, Span, Tree, UnaryOp};

/// As deep as any script is read.
const LIMIT: u32 = 64;

#[derive(Clone, Copy, PartialEq, Eq, Debug)]
pub struct NodeId(pub u32);

#[derive(Clone, Copy, PartialEq, Eq, Debug)]
pub struct Symbol(pub u32);

#[derive(Clone, Copy, PartialEq, Debug)]
pub struct Spanned<T> {
    pub value: T,
    pub span: Span,
}

#[derive(PartialEq, Debug)]
pub enum Node {
    Binary {
        operator: BinaryOp,
        left: NodeId,
        right: NodeId,
    },
    LogicalAnd {
        left: NodeId,
        right: NodeId,
    },
    LogicalOr {
        left: NodeId,
        right: NodeId,
    },
    LogicalNot(NodeId),
    Unary {
        operator: UnaryOp,
        operand: NodeId,
    },
    Assign {
        left: NodeId,
        right: NodeId,
    },
    Variable {
        left: Spanned<Symbol>,
        right: NodeId,
    },
    Constant {
        left: Spanned<Symbol>,
        right: NodeId,
    },
    Ref {
        left: Spanned<Symbol>,
        right: NodeId,
    },
    Identifier(Spanned<Symbol>),
    String(Symbol),
    Number(f64),
    Boolean(bool),
    Nil,
    FunctionCall {
        callee: NodeId,
        arguments: Vec<NodeId>,
    },
    PropertyAccess {
        object: NodeId,
        property: Spanned<Symbol>,
    },
    Map {
        entries: Vec<(NodeId, Option<NodeId>)>,
    },
    Function {
        name: Spanned<Symbol>,
        parameters: Vec<Spanned<Symbol>>,
        block: NodeId,
    },
    Lambda {
        parameters: Vec<Spanned<Symbol>>,
        block: NodeId,
    },
    Block {
        statements: Vec<NodeId>,
        tail: Option<NodeId>,
    },
    If {
        condition: NodeId,
        then_branch: NodeId,
        else_branch: Option<NodeId>,
    },
    WhileLoop {
        condition: NodeId,
        block: NodeId,
    },
    /// Edition 2 alone has one without a child.
    Return(Option<NodeId>),
    Break,
    Continue,
    Import {
        path: Vec<Spanned<Symbol>>,
        bindings: Vec<Spanned<Symbol>>,
    },
}

/// The last node is the root.
#[derive(Debug, Default)]
pub struct Ast {
    nodes: Vec<Spanned<Node>>,
}

impl Ast {
    pub fn last(&self) -> NodeId {
        NodeId(self.nodes.len() as u32 - 1)
    }

    pub fn node(&self, id: NodeId) -> &Node {
        &self.nodes[id.0 as usize].value
    }

    pub fn span(&self, id: NodeId) -> Span {
        self.nodes[id.0 as usize].span
    }
}

#[derive(Debug, Default)]
pub struct Interner {
    known: HashMap<String, Symbol>,
}

impl Interner {
    pub fn get_or_intern(&mut self, word: &str) -> Symbol {
        let next = Symbol(self.known.len() as u32);
        *self.known.entry(word.to_string()).or_insert(next)
    }
}

#[derive(Debug)]
pub struct Error {
    pub span: Span,
    pub message: String,
}

impl From<Refusal> for Error {
    /// For what the Rust parser refuses the message is the one that it had.
    fn from(why: Refusal) -> Error {
        Error { span: why.span, message: why.to_string() }
    }
}

pub struct Parser<'a> {
    source: &'a str,
    tokens: Vec<(Kind, Span)>,
    interner: &'a mut Interner,
}

impl<'a> Parser<'a> {
    pub fn new(source: &'a str, tokens: Vec<(Kind, Span)>, interner: &'a mut Interner) -> Parser<'a> {
        Parser { source, tokens, interner }
    }

    /// A program that reads many scripts keeps the rooms from call to call.
    pub fn parse(self) -> Result<Ast, Error> {
        let Parser { source, tokens, interner } = self;
        let list: Vec<u32> =
            tokens.iter().flat_map(|&(kind, span)| [kind as u32, span.start, span.end]).collect();
        let mut rooms = Rooms::for_tokens(tokens.len());
        let tree = rooms.parse(source.as_bytes(), &list, LIMIT)?;
        // the reader's symbols are numbers of this script alone, in the order in which an interner meets the words
        let symbols: Vec<Symbol> = (0..tree.symbol_rows().len() as u32)
            .map(|symbol| interner.get_or_intern(&word(tree.symbol(symbol).unwrap_or_default())))
            .collect();
        let nodes = tree.rows().map(|row| Spanned { value: owned(&tree, &symbols, &row), span: row.span });
        Ok(Ast { nodes: nodes.collect() })
    }
}

/// Every script is ASCII.
fn word(bytes: &[u8]) -> String {
    String::from_utf8_lossy(bytes).into_owned()
}

fn owned(tree: &Tree, symbols: &[Symbol], row: &Row) -> Node {
    let symbol = |number: u32| symbols[number as usize];
    let named = |name: Name| Spanned { value: symbol(name.symbol), span: name.span };
    let id = NodeId;
    match row.node {
        Read::Binary { operator, left, right } => Node::Binary { operator, left: id(left), right: id(right) },
        Read::LogicalAnd { left, right } => Node::LogicalAnd { left: id(left), right: id(right) },
        Read::LogicalOr { left, right } => Node::LogicalOr { left: id(left), right: id(right) },
        Read::LogicalNot(child) => Node::LogicalNot(id(child)),
        Read::Unary { operator, operand } => Node::Unary { operator, operand: id(operand) },
        Read::Assign { left, right } => Node::Assign { left: id(left), right: id(right) },
        Read::Variable { left, right } => Node::Variable { left: named(left), right: id(right) },
        Read::Constant { left, right } => Node::Constant { left: named(left), right: id(right) },
        Read::Ref { left, right } => Node::Ref { left: named(left), right: id(right) },
        Read::Identifier(name) => Node::Identifier(named(name)),
        Read::String(inside) => Node::String(symbol(inside)),
        // a number is its text, which `f64` reads
        Read::Number => Node::Number(
            row.span.of(tree.text()).and_then(|text| word(text).parse().ok()).expect("a number's text"),
        ),
        Read::Boolean(value) => Node::Boolean(value),
        Read::Nil => Node::Nil,
        Read::FunctionCall { callee, arguments } => {
            Node::FunctionCall { callee: id(callee), arguments: arguments.iter().map(id).collect() }
        }
        Read::PropertyAccess { object, property } => {
            Node::PropertyAccess { object: id(object), property: named(property) }
        }
        Read::Map { entries } => {
            Node::Map { entries: entries.iter().map(|(key, value)| (id(key), value.map(id))).collect() }
        }
        Read::Function { name, parameters, block } => Node::Function {
            name: named(name),
            parameters: parameters.iter().map(named).collect(),
            block: id(block),
        },
        Read::Lambda { parameters, block } => {
            Node::Lambda { parameters: parameters.iter().map(named).collect(), block: id(block) }
        }
        Read::Block { statements, tail } => {
            Node::Block { statements: statements.iter().map(id).collect(), tail: tail.map(id) }
        }
        Read::If { condition, then_branch, else_branch } => Node::If {
            condition: id(condition),
            then_branch: id(then_branch),
            else_branch: else_branch.map(id),
        },
        Read::WhileLoop { condition, block } => {
            Node::WhileLoop { condition: id(condition), block: id(block) }
        }
        Read::Return(child) => Node::Return(child.map(id)),
        Read::Break => Node::Break,
        Read::Continue => Node::Continue,
        Read::Import { path, bindings } => Node::Import {
            path: path.iter().map(named).collect(),
            bindings: bindings.iter().map(named).collect(),
        },
    }
}

/// Where a program had its own token maker: the reader has one too.
fn tokens(source: &str) -> Result<Vec<(Kind, Span)>, Error> {
    let mut rooms = Rooms::max();
    let tree = rooms.read(source.as_bytes(), LIMIT)?;
    Ok(tree.tokens().iter().map(|token| (token.kind, token.span)).collect())
}

fn main() -> Result<(), Error> {
    let mut interner = Interner::default();
    interner.get_or_intern("price");
    let source = "let total = price * 2.5; show(total, \"late\");";
    let ast = Parser::new(source, tokens(source)?, &mut interner).parse()?;
    for id in (0..=ast.last().0).map(NodeId) {
        let Span { start, end } = ast.span(id);
        println!("{} {start}..{end} {:?}", id.0, ast.node(id));
    }
    assert_eq!(*ast.node(NodeId(1)), Node::Number(2.5));
    assert_eq!(*ast.node(ast.last()), Node::Block { statements: vec![NodeId(3), NodeId(7)], tail: None });
    // the program's own symbols: price was known, the others are new
    let names = ["price", "total", "show", "late"].map(|name| interner.get_or_intern(name));
    assert_eq!(names, [Symbol(0), Symbol(1), Symbol(2), Symbol(3)]);

    let (name, eof) = (Span { start: 0, end: 1 }, Span { start: 1, end: 1 });
    let error = Parser::new("a", vec![(Kind::Identifier, name), (Kind::Eof, eof)], &mut interner);
    let Error { span, message } = error.parse().expect_err("a refusal");
    println!("{}..{} {message}", span.start, span.end);
    assert_eq!((span, message.as_str()), (eof, "expected `;` and found <end of file>"));
    Ok(())
}
