//! Stands in for the type `Error`: it keeps what it is given.
use crate::{syntax::token::Span, util::string_interner::Symbol};

#[derive(Debug)]
pub struct Error {
    pub span: Span,
    pub file: Symbol,
    pub message: String,
}

impl Error {
    pub fn new(span: Span, file: Symbol, message: String) -> Self {
        Self { span, file, message }
    }
}
