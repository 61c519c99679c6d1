
// What follows is not of parser.rs: it tells the recorder where the parser stands, and of names.
impl<'a> Parser<'a> {
    fn advance_token(&mut self) {
        self.advance_token_inner();
        crate::recorder::came_to(self.pos);
    }

    fn parse_name(&mut self) -> Result<Spanned<Symbol>, Error> {
        let name = self.parse_name_inner()?; // interned before its token is looked at, but a name only now
        crate::recorder::named(name.value);
        Ok(name)
    }
}
