// Included by rows.rs for each of the two trees: their types have the same names.
use std::collections::HashMap;

use kaori::{syntax::token::Span, util::string_interner::Symbol};

use super::{ABSENT, Builtins, Case, NODE_WIDTH, PARENT, Rows, Tree, symbols};

impl Tree for Ast {
    fn rows(&self, names: &Builtins, case: &Case) -> Rows {
        let mut writer = Writer { ids: Ids::up_to(self.last()), rows: Rows::default() };
        for id in writer.ids.all.clone() {
            let (kind, numbers) = writer.fields(self.node(id));
            let Span { start, end } = self.span(id);
            let mut row = [0; NODE_WIDTH];
            row[..3].copy_from_slice(&[kind, start, end]);
            row[3..3 + numbers.len()].copy_from_slice(&numbers);
            row[PARENT] = ABSENT; // until its parent is written
            writer.rows.nodes.push(row);
        }
        let (_, others) = writer.rows.nodes.split_last().expect("a root");
        assert!(others.iter().all(|row| row[PARENT] != ABSENT), "a row without a parent");
        writer.rows.symbols = symbols(names, case);
        writer.rows
    }
}

/// The numbers of node ids. Their field is private, but a tree hands them out in order.
struct Ids {
    all: Vec<NodeId>,
    numbers: HashMap<NodeId, u32>,
}

impl Ids {
    fn up_to(last: NodeId) -> Ids {
        let mut ids = Ids { all: Vec::new(), numbers: HashMap::new() };
        let mut tree = Ast::default();
        while !ids.numbers.contains_key(&last) {
            let id = tree.nil(Span::default());
            ids.numbers.insert(id, ids.all.len() as u32);
            ids.all.push(id);
        }
        ids
    }
}

struct Writer {
    ids: Ids,
    rows: Rows,
}

impl Writer {
    /// A node's kind, and the numbers after its span. Its lists are written to the link rows, and it is put into its
    /// children's rows.
    fn fields(&mut self, node: &Node) -> (u32, Vec<u32>) {
        match node {
            Node::Binary { operator, left, right } => {
                (1, vec![*operator as u32, self.child(*left), self.child(*right)])
            }
            Node::LogicalAnd { left, right } => (2, vec![self.child(*left), self.child(*right)]),
            Node::LogicalOr { left, right } => (3, vec![self.child(*left), self.child(*right)]),
            Node::LogicalNot(child) => (4, vec![self.child(*child)]),
            Node::Unary { operator, operand } => (5, vec![*operator as u32, self.child(*operand)]),
            Node::Assign { left, right } => (6, vec![self.child(*left), self.child(*right)]),
            Node::Variable { left, right } => (7, self.binding(left, *right)),
            Node::Constant { left, right } => (8, self.binding(left, *right)),
            Node::Ref { left, right } => (9, self.binding(left, *right)),
            Node::Identifier(name) => (10, named(name).to_vec()),
            Node::String(symbol) => (11, vec![symbol.0]),
            Node::Number(_) => (12, vec![]),
            Node::Boolean(value) => (13, vec![*value as u32]),
            Node::Nil => (14, vec![]),
            Node::FunctionCall { callee, arguments } => {
                let [first, count] = self.nodes(arguments);
                (15, vec![self.child(*callee), first, count])
            }
            Node::PropertyAccess { object, property } => {
                let [symbol, start, end] = named(property);
                (16, vec![self.child(*object), symbol, start, end])
            }
            Node::Map { entries } => {
                let row = |writer: &mut Self, entry: &(NodeId, Option<NodeId>)| {
                    [writer.child(entry.0), writer.option(entry.1), 0]
                };
                (17, self.list(entries, row).to_vec())
            }
            Node::Function { name, parameters, block } => {
                let [symbol, start, end] = named(name);
                let [first, count] = self.names(parameters);
                (18, vec![symbol, start, end, first, count, self.child(*block)])
            }
            Node::Lambda { parameters, block } => {
                let [first, count] = self.names(parameters);
                (19, vec![first, count, self.child(*block)])
            }
            Node::Block { statements, tail } => {
                let [first, count] = self.nodes(statements);
                (20, vec![first, count, self.option(*tail)])
            }
            Node::If { condition, then_branch, else_branch } => {
                let children = [self.child(*condition), self.child(*then_branch), self.option(*else_branch)];
                (21, children.to_vec())
            }
            Node::WhileLoop { condition, block } => (22, vec![self.child(*condition), self.child(*block)]),
            Node::Return(child) => (23, vec![self.option(*child)]),
            Node::Break => (24, vec![]),
            Node::Continue => (25, vec![]),
            Node::Import { path, bindings } => (26, [self.names(path), self.names(bindings)].concat()),
        }
    }

    /// The number of a child's row. It gets its parent: the row that is being written.
    fn child(&mut self, id: NodeId) -> u32 {
        let number = self.ids.numbers[&id];
        let parent = self.rows.nodes.len() as u32;
        let place = &mut self.rows.nodes[number as usize][PARENT];
        assert_eq!(*place, ABSENT, "row {number} has two parents");
        *place = parent;
        number
    }

    fn option(&mut self, id: impl Into<Option<NodeId>>) -> u32 {
        id.into().map_or(ABSENT, |id| self.child(id))
    }

    fn binding(&mut self, left: &Spanned<Symbol>, right: NodeId) -> Vec<u32> {
        let [symbol, start, end] = named(left);
        vec![symbol, start, end, self.child(right)]
    }

    /// Writes a list; gives its first link row and its count.
    fn list<T>(&mut self, items: &[T], row: impl Fn(&mut Self, &T) -> [u32; 3]) -> [u32; 2] {
        let first = self.rows.links.len();
        for item in items {
            let link = row(self, item);
            self.rows.links.push(link);
        }
        [first as u32, items.len() as u32]
    }

    fn nodes(&mut self, items: &[NodeId]) -> [u32; 2] {
        self.list(items, |writer, id| [writer.child(*id), 0, 0])
    }

    fn names(&mut self, items: &[Spanned<Symbol>]) -> [u32; 2] {
        self.list(items, |_, name| named(name))
    }
}

fn named(name: &Spanned<Symbol>) -> [u32; 3] {
    [name.value.0, name.span.start, name.span.end]
}
