//! Edition 2 as a change of the Rust: what stands in its sources, and what stands there instead. Beside each change are the words of
//! document 02, L14, that ask for it.

/// A text that its file has once, and what takes its place.
pub type Change = (&'static str, &'static str);

/// parser.rs.
pub const PARSER: [Change; 4] = [
    // '`not` takes a prefix operand, its span runs to the operand's end'
    (
        "\
                let right = self.parse_expression()?;

                return Ok(self.ast.logical_not(right, span));
",
        "\
                let right = self.parse_prefix_unary()?;

                let span = span.merge(self.ast.span(right));

                return Ok(self.ast.logical_not(right, span));
",
    ),
    // '`return` before `;` or `}` has an absent child and its own token's span'
    (
        "\
        let span = self.consume(Token::Return)?;

",
        "\
        let span = self.consume(Token::Return)?;

        if matches!(self.peek_token(), Token::Semicolon | Token::RightBrace) {
            return Ok(self.ast.return_(None, span));
        }

",
    ),
    (
        "\
        Ok(self.ast.return_(expression, span))
",
        "\
        Ok(self.ast.return_(Some(expression), span))
",
    ),
    // 'a chain may follow a `)` that closes an expression'
    (
        "\
                self.consume(Token::RightParen)?;

                expression
",
        "\
                self.consume(Token::RightParen)?;

                self.parse_postfix_unary(expression)?
",
    ),
];

/// ast.rs: 'an absent child'.
pub const AST: [Change; 2] = [
    ("    Return(NodeId),\n", "    Return(Option<NodeId>),\n"),
    (
        "    pub fn return_(&mut self, expression: NodeId, span: Span) -> NodeId {\n",
        "    pub fn return_(&mut self, expression: Option<NodeId>, span: Span) -> NodeId {\n",
    ),
];

/// counting.rs: 'it counts depth as a sign does'.
pub const COUNTING: [Change; 1] = [(
    "            Token::Plus | Token::Minus | Token::Caret => {\n",
    "            Token::Plus | Token::Minus | Token::Caret | Token::Not => {\n",
)];
