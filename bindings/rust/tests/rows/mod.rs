//! What the program `rows` reads and prints, over this crate: each printed row is made again from its node.
use std::fmt::Write;

use kaori_syntax::{NODE_WIDTH, Name, Node, Refusal, Tree};

/// The printed rows of a script, each made again from its node; an unused number is 0.
fn printed(tree: &Tree) -> String {
    let mut out = String::new();
    let counts = (tree.node_rows().len(), tree.link_rows().len(), tree.symbol_rows().len());
    writeln!(out, "ok {} {} {}", counts.0, counts.1, counts.2).unwrap();
    let mut links = Vec::new();
    for row in tree.rows() {
        let (kind, numbers) = fields(&row.node, &mut links);
        let mut all = vec![kind, row.span.start, row.span.end];
        all.extend(&numbers);
        all.resize(NODE_WIDTH - 1, 0);
        all.push(row.parent.unwrap_or(u32::MAX));
        writeln!(out, "{} {}", row.number, words(&all)).unwrap();
    }
    for (i, link) in links.iter().enumerate() {
        writeln!(out, "link {i} {}", words(link)).unwrap();
    }
    for (i, symbol) in tree.symbol_rows().iter().enumerate() {
        writeln!(out, "sym {i} {}", words(symbol)).unwrap();
    }
    out
}

fn words(numbers: &[u32]) -> String {
    numbers.iter().map(u32::to_string).collect::<Vec<_>>().join(" ")
}

fn fields(node: &Node, links: &mut Vec<[u32; 3]>) -> (u32, Vec<u32>) {
    let named = |name: Name| [name.symbol, name.span.start, name.span.end];
    let mut list = |rows: Vec<[u32; 3]>| {
        let numbers = [links.len() as u32, rows.len() as u32];
        links.extend(rows);
        numbers
    };
    let absent = |child: Option<u32>| child.unwrap_or(u32::MAX);
    match *node {
        Node::Binary { operator, left, right } => (1, vec![operator as u32, left, right]),
        Node::LogicalAnd { left, right } => (2, vec![left, right]),
        Node::LogicalOr { left, right } => (3, vec![left, right]),
        Node::LogicalNot(child) => (4, vec![child]),
        Node::Unary { operator, operand } => (5, vec![operator as u32, operand]),
        Node::Assign { left, right } => (6, vec![left, right]),
        Node::Variable { left, right } => (7, [&named(left)[..], &[right]].concat()),
        Node::Constant { left, right } => (8, [&named(left)[..], &[right]].concat()),
        Node::Ref { left, right } => (9, [&named(left)[..], &[right]].concat()),
        Node::Identifier(name) => (10, named(name).to_vec()),
        Node::String(symbol) => (11, vec![symbol]),
        Node::Number => (12, vec![]),
        Node::Boolean(value) => (13, vec![value as u32]),
        Node::Nil => (14, vec![]),
        Node::FunctionCall { callee, arguments } => {
            let [first, count] = list(arguments.iter().map(|id| [id, 0, 0]).collect());
            (15, vec![callee, first, count])
        }
        Node::PropertyAccess { object, property } => (16, [&[object][..], &named(property)].concat()),
        Node::Map { entries } => {
            (17, list(entries.iter().map(|(key, value)| [key, absent(value), 0]).collect()).to_vec())
        }
        Node::Function { name, parameters, block } => {
            let numbers = list(parameters.iter().map(named).collect());
            (18, [&named(name)[..], &numbers, &[block]].concat())
        }
        Node::Lambda { parameters, block } => {
            let numbers = list(parameters.iter().map(named).collect());
            (19, [&numbers[..], &[block]].concat())
        }
        Node::Block { statements, tail } => {
            let numbers = list(statements.iter().map(|id| [id, 0, 0]).collect());
            (20, [&numbers[..], &[absent(tail)]].concat())
        }
        Node::If { condition, then_branch, else_branch } => {
            (21, vec![condition, then_branch, absent(else_branch)])
        }
        Node::WhileLoop { condition, block } => (22, vec![condition, block]),
        Node::Return(child) => (23, vec![absent(child)]),
        Node::Break => (24, vec![]),
        Node::Continue => (25, vec![]),
        Node::Import { path, bindings } => {
            let path = list(path.iter().map(named).collect());
            let bindings = list(bindings.iter().map(named).collect());
            (26, [path, bindings].concat())
        }
    }
}

/// The text and the tokens of a case. None: `bad input`.
pub fn decode(bytes: &[u8]) -> Option<(&[u8], Vec<u32>)> {
    let number = |at: usize| Some(u32::from_le_bytes(bytes.get(at..at + 4)?.try_into().ok()?));
    if bytes.get(..2)? != b"KS" {
        return None;
    }
    let length = number(2)? as usize;
    let text = bytes.get(6..6 + length).filter(|_| length <= 8192)?;
    let (mut at, mut tokens) = (6 + length, Vec::new());
    while at < bytes.len() {
        if bytes.get(at..at + 2)? != b"KT" || tokens.len() == 3 * 512 {
            return None;
        }
        tokens.extend([u32::from(*bytes.get(at + 2)?), number(at + 3)?, number(at + 7)?]);
        at += 11;
    }
    Some((text, tokens))
}

/// The next frame of a stream: 4 bytes of length, little-endian, and so many bytes.
pub fn frame<'a>(rest: &mut &'a [u8]) -> Option<&'a [u8]> {
    let length = u32::from_le_bytes(rest.get(..4)?.try_into().ok()?) as usize;
    let frame = rest.get(4..4 + length)?;
    *rest = &rest[4 + length..];
    Some(frame)
}

/// The printed answer of a call.
pub fn answer(ours: Result<Tree, Refusal>) -> String {
    match ours {
        Ok(tree) => printed(&tree),
        Err(r) => {
            let expected = r.expected.map_or(255, u32::from);
            let numbers = [r.code as u32, r.at, r.span.start, r.span.end, expected];
            format!("refused {}\n{}\n", words(&numbers), r.message().as_str())
        }
    }
}
