//! Runs the original parser, and the derived ones that count openings and record rows, and holds one against the other. In
//! edition 2 the changed parser stands for the original. A guard (request L9) is read by the same parsers.
use std::{
    cell::Cell,
    panic::{self, AssertUnwindSafe},
    sync::{Mutex, Once, PoisonError},
};

use kaori::{
    compiler::{Compiler, FOR, NESTED, Opening, fresh_interner},
    diagnostics::error::Error,
    recorder::{self, Asked, Row},
    syntax::{counted, parser, recorded, second_counted, second_parser, second_recorded, token},
};

use crate::{
    builtins::Builtins,
    case::Case,
    kinds::TOKENS,
    rows::{NO_KIND, Outcome, Refusal, Rows, Tree},
    show,
    terms::{Call, SECOND, Terms},
};

pub struct Reading {
    pub outcome: Outcome,
    /// The most openings taken at once, within the limit.
    pub deepest: u32,
    /// The openings that were not whole at the end: none, or at a refusal what it lies inside of.
    pub chain: Vec<Opening>,
}

static TURN: Mutex<()> = Mutex::new(()); // there is one interner

/// Reads a case that has passed the door, with an interner that is given the built-in names first.
pub fn read(names: &Builtins, case: &Case, call: impl Into<Call>) -> Reading {
    let _turn = TURN.lock().unwrap_or_else(PoisonError::into_inner);

    let Call { is_guard, terms: Terms { edition, limit } } = call.into();
    let (text, tokens) = (text(case), || tokens(case));
    let compiler = Compiler::with_limit(limit);
    let counted = match edition {
        SECOND => {
            result(names, case, || second_counted::Parser::new(text, tokens(), &compiler).read(is_guard))
        }
        _ => result(names, case, || counted::Parser::new(text, tokens(), &compiler).read(is_guard)),
    };
    let (deepest, chain) = (compiler.deepest(), compiler.chain());

    let outcome = match counted {
        Parsed::Error(error) if error.message == NESTED => refused(case, 11, NO_KIND, &error),
        counted => {
            let compiler = Compiler::default();
            let original = match edition {
                SECOND => result(names, case, || {
                    second_parser::Parser::new(text, tokens(), &compiler).read(is_guard)
                }),
                _ => result(names, case, || parser::Parser::new(text, tokens(), &compiler).read(is_guard)),
            };
            agreed(case, original, counted)
        }
    };
    Reading { outcome, deepest, chain }
}

/// What the original says of a list.
pub enum Said {
    Whole,
    Error(Error),
    /// It comes to a `for`, and panics.
    For,
}

/// Asks the original, which has no limit, and whose interner goes on from case to case.
pub fn ask(edition: u32, text: &str, tokens: Vec<(token::Token, token::Span)>) -> Said {
    let _turn = TURN.lock().unwrap_or_else(PoisonError::into_inner);
    let compiler = Compiler::default();
    let parsed = silently(|| match edition {
        SECOND => second_parser::Parser::new(text, tokens, &compiler).parse().map(drop),
        _ => parser::Parser::new(text, tokens, &compiler).parse().map(drop),
    });
    match parsed {
        Ok(Ok(())) => Said::Whole,
        Ok(Err(error)) => Said::Error(error),
        Err(message) if message == UNFINISHED => Said::For,
        Err(message) => panic!("the parser panicked: {message}"),
    }
}

/// The rows that the reading of a case asks for, in order, up to its end or its refusal: what `read` gives. Those of the
/// built-in names stand already. The case has passed the door.
pub fn record(names: &Builtins, case: &Case, call: impl Into<Call>, outcome: &Outcome) -> Vec<Asked> {
    let _turn = TURN.lock().unwrap_or_else(PoisonError::into_inner);
    let given = words(names);
    fresh_interner(&given);
    recorder::start(given.len() as u32);
    let Call { is_guard, terms: Terms { edition, limit } } = call.into();
    let compiler = Compiler::with_limit(limit);
    let (text, tokens) = (text(case), tokens(case));
    let parsed = silently(|| match edition {
        SECOND => second_recorded::Parser::new(text, tokens, &compiler).read(is_guard).map(drop),
        _ => recorded::Parser::new(text, tokens, &compiler).read(is_guard).map(drop),
    });
    let asked = recorder::asked();
    match (parsed, outcome) {
        (Ok(Ok(_)), Outcome::Accepted(rows)) => {
            let count = |row: Row| asked.iter().filter(|asked| asked.row == row).count();
            let counts = [Row::Node, Row::Link, Row::Symbol].map(count);
            let written = [rows.nodes.len(), rows.links.len(), rows.symbols.len() - given.len()];
            assert_eq!(counts, written, "rows asked for and written: {}", show::case(&case.encode()));
        }
        (Ok(Err(error)), Outcome::Refused(refusal)) => {
            let Refusal { start, end, message, .. } = refusal;
            assert_eq!((error.span.start, error.span.end, &error.message), (*start, *end, message));
        }
        _ => panic!("the recording parser differs:\n{}", show::case(&case.encode())),
    }
    assert!(asked.is_sorted_by_key(|asked| asked.at), "rows are asked for from left to right");
    asked
}

/// The message of `todo!()`.
const UNFINISHED: &str = "not yet implemented";

enum Parsed {
    Rows(Rows),
    Error(Error),
    /// `todo!()`
    Panic,
}

fn text(case: &Case) -> &str {
    str::from_utf8(&case.text).expect("the door lets ASCII alone through")
}

fn tokens(case: &Case) -> Vec<(token::Token, token::Span)> {
    let span = |start, end| token::Span { start, end };
    case.tokens.iter().map(|t| (TOKENS[t.kind as usize], span(t.start, t.end))).collect()
}

fn words(names: &Builtins) -> Vec<&str> {
    names.words().expect("the door lets right names alone through")
}

fn result<T: Tree>(names: &Builtins, case: &Case, parse: impl FnOnce() -> Result<T, Error>) -> Parsed {
    fresh_interner(&words(names));
    match silently(parse) {
        Ok(Ok(tree)) => Parsed::Rows(tree.rows(names, case)),
        Ok(Err(error)) => Parsed::Error(error),
        Err(message) if message == UNFINISHED => Parsed::Panic,
        Err(message) => panic!("the parser panicked: {message}"),
    }
}

/// The outcome of the original. The derived parser adds the place where the original panics at `for`.
fn agreed(case: &Case, original: Parsed, counted: Parsed) -> Outcome {
    match (original, counted) {
        (Parsed::Rows(rows), Parsed::Rows(same)) => {
            assert_eq!(rows, same, "{}", show::case(&case.encode()));
            Outcome::Accepted(rows)
        }
        (Parsed::Error(error), Parsed::Error(same)) => {
            let place = |error: &Error| (error.span.start, error.span.end);
            assert_eq!((place(&error), &error.message), (place(&same), &same.message));
            let (code, expected) = meaning(&error.message);
            refused(case, code, expected, &error)
        }
        (Parsed::Panic, Parsed::Error(error)) if error.message == FOR => refused(case, 10, NO_KIND, &error),
        _ => panic!("the original and the derived parser differ:\n{}", show::case(&case.encode())),
    }
}

/// Code and expected kind of a message of parser.rs.
pub fn meaning(message: &str) -> (u32, u32) {
    if message.starts_with("expected a <operand> and found: ") {
        return (9, NO_KIND);
    }
    let required = message.strip_prefix("expected ").and_then(|rest| rest.split_once(" and found "));
    let (name, _) = required.unwrap_or_else(|| panic!("a message without a code: {message}"));
    let kind = TOKENS.iter().position(|token| token.to_string() == name);
    (8, kind.unwrap_or_else(|| panic!("no kind is called {name}")) as u32)
}

/// The token is found by its span: past the door no two tokens have the same.
fn refused(case: &Case, code: u32, expected: u32, error: &Error) -> Outcome {
    let token::Span { start, end } = error.span;
    let at = case.tokens.iter().position(|token| (token.start, token.end) == (start, end));
    let at = at.expect("a token with the error's span") as u32;
    let message = error.message.clone();
    Outcome::Refused(Refusal { code, at, start, end, expected, message })
}

thread_local! {
    static SILENT: Cell<bool> = const { Cell::new(false) };
}

/// Runs `work`; if it panics, gives the message and prints nothing.
pub fn silently<T>(work: impl FnOnce() -> T) -> Result<T, String> {
    static HOOK: Once = Once::new();
    HOOK.call_once(|| {
        let usual = panic::take_hook();
        panic::set_hook(Box::new(move |info| {
            if !SILENT.get() {
                usual(info);
            }
        }));
    });

    SILENT.set(true);
    let result = panic::catch_unwind(AssertUnwindSafe(work));
    SILENT.set(false);
    result.map_err(|payload| match payload.downcast::<String>() {
        Ok(message) => *message,
        Err(payload) => payload.downcast::<&str>().map_or("no message".into(), |text| text.to_string()),
    })
}
