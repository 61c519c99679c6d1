
// What follows is not of parser.rs: it reads a whole script, or a guard, which is one expression and then Eof.
impl<'a> Parser<'a> {
    pub fn read(mut self, is_guard: bool) -> Result<Ast, Error> {
        if !is_guard {
            return self.parse();
        }
        let expression = self.parse_expression()?;
        self.consume(Token::Eof)?;
        assert_eq!(expression, self.ast.last(), "the expression is the last row");
        Ok(self.ast)
    }
}
