
// What follows is not of ast.rs: it tells the recorder of each node, as it is made.
impl Ast {
    fn insert(&mut self, node: Node, span: Span) -> NodeId {
        if let Node::String(symbol) = node {
            crate::recorder::named(symbol);
        }
        crate::recorder::made(match &node {
            Node::FunctionCall { arguments, .. } => arguments.len(),
            Node::Map { entries } => entries.len(),
            Node::Function { parameters, .. } | Node::Lambda { parameters, .. } => parameters.len(),
            Node::Block { statements, .. } => statements.len(),
            Node::Import { path, bindings } => path.len() + bindings.len(),
            _ => 0,
        });
        self.insert_inner(node, span)
    }
}
