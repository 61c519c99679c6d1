
// What follows is not of parser.rs: it counts openings, each before its first token is looked at, and keeps those that are not whole.
use crate::compiler::Sort;

impl<'a> Parser<'a> {
    fn opened(
        &mut self,
        sort: Sort,
        read: fn(&mut Self) -> Result<NodeId, Error>,
    ) -> Result<NodeId, Error> {
        if !self.compiler.open(sort, self.pos) {
            return self.stopped(crate::compiler::NESTED);
        }
        let node = read(self)?;
        self.compiler.close();
        Ok(node)
    }

    fn stopped(&mut self, message: &str) -> Result<NodeId, Error> {
        Err(Error::new(self.peek_span(), self.compiler.current_file, message.to_string()))
    }

    fn parse_expression(&mut self) -> Result<NodeId, Error> {
        self.opened(Sort::Expression, Self::parse_expression_inner)
    }

    fn parse_block(&mut self) -> Result<NodeId, Error> {
        self.opened(Sort::Block, Self::parse_block_inner)
    }

    fn parse_if(&mut self) -> Result<NodeId, Error> {
        self.opened(Sort::If, Self::parse_if_inner)
    }

    fn parse_prefix_unary(&mut self) -> Result<NodeId, Error> {
        match self.peek_token() {
            Token::Plus | Token::Minus | Token::Caret => {
                self.opened(Sort::Sign, Self::parse_prefix_unary_inner)
            }
            _ => self.parse_prefix_unary_inner(),
        }
    }

    fn parse_for_loop(&mut self) -> Result<NodeId, Error> {
        self.stopped(crate::compiler::FOR)
    }
}
