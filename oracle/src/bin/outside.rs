//! What the original does where the port's answer is not its own: the runs behind docs/DIFFERENCES.md.
use std::{env, process::Command, thread};

use Token::*;
use kaori::{
    compiler::{Compiler, fresh_interner},
    syntax::{parser::Parser, token::Span, token::Token},
};
use oracle::{
    answer::{LIMIT, outcome, printed},
    case::{self, Case},
    judge::silently,
    list::script,
    rooms::Known,
    rows::Outcome,
    show,
    tight::rooms_of,
};

type Tokens<'a> = &'a [(Token, u32, u32)];

/// A text, its tokens, and what there is to see.
#[rustfmt::skip]
const RUNS: &[(&str, &str, Tokens)] = &[
    ("an empty list", "", &[]),
    ("no Eof at the end", "a", &[(Identifier, 0, 1)]),
    ("no Eof after a whole statement", "a;", &[(Identifier, 0, 1), (Semicolon, 1, 2)]),
    ("Eof before the last place", "", &[(Eof, 0, 0), (Eof, 0, 0)]),
    ("a token after Eof", ")", &[(Eof, 0, 0), (RightParen, 0, 1)]),
    ("start over end, the lexeme used", "a;", &[(Identifier, 1, 0), (Semicolon, 1, 2), (Eof, 2, 2)]),
    ("start over end, the lexeme not used", ";", &[(Nil, 1, 0), (Semicolon, 0, 1), (Eof, 1, 1)]),
    ("end past the text, the lexeme used", "", &[(Identifier, 0, 1), (Semicolon, 1, 2), (Eof, 2, 2)]),
    ("end past the text, the lexeme not used", "", &[(Nil, 0, 3), (Semicolon, 3, 4), (Eof, 4, 4)]),
    ("start before the previous end", "a;", &[(Identifier, 0, 1), (Semicolon, 0, 2), (Eof, 2, 2)]),
    ("a keyword as a name", "if;", &[(Identifier, 0, 2), (Semicolon, 2, 3), (Eof, 3, 3)]),
    ("an empty name", ";", &[(Identifier, 0, 0), (Semicolon, 0, 1), (Eof, 1, 1)]),
    ("another kind's spelling", "+;", &[(Nil, 0, 1), (Semicolon, 1, 2), (Eof, 2, 2)]),
    ("a number that is none", "x;", &[(NumberLiteral, 0, 1), (Semicolon, 1, 2), (Eof, 2, 2)]),
    ("an empty number", ";", &[(NumberLiteral, 0, 0), (Semicolon, 0, 1), (Eof, 1, 1)]),
    ("a number in f64's form alone", ".5;", &[(NumberLiteral, 0, 2), (Semicolon, 2, 3), (Eof, 3, 3)]),
    ("an empty string token", ";", &[(StringLiteral, 0, 0), (Semicolon, 0, 1), (Eof, 1, 1)]),
    ("a string token of one quote", "\";", &[(StringLiteral, 0, 1), (Semicolon, 1, 2), (Eof, 2, 2)]),
    ("a string token without quotes", "abc;", &[(StringLiteral, 0, 3), (Semicolon, 3, 4), (Eof, 4, 4)]),
    ("a character over 127", "\"é\";", &[(StringLiteral, 0, 4), (Semicolon, 4, 5), (Eof, 5, 5)]),
    ("a span inside a character", "é;", &[(Identifier, 0, 1), (Semicolon, 2, 3), (Eof, 3, 3)]),
];

fn main() {
    let words: Vec<_> = env::args().skip(1).collect();
    if let [_, times, stack] = words.as_slice() {
        return parentheses(times.parse().expect("a number"), stack.parse().expect("a number"));
    }
    for (name, text, tokens) in RUNS {
        let token = |&(kind, start, end): &(Token, u32, u32)| case::Token { kind: kind as u8, start, end };
        compare(name, &Case { text: (*text).into(), tokens: tokens.iter().map(token).collect() });
    }
    compare("`for` in statement place", &script("for"));
    compare("65 openings", &script(&("-".repeat(64) + "a;")));
    compare("65 openings and an error behind them", &script(&"(".repeat(65)));
    compare_in("no room for the root's row", &script(""), [0, 0, 0]);
    compare_in("no room for a row before an error", &script("a"), [0, 0, 1]);
    compare("4,097 tokens", &script(&"a;".repeat(2_048)));
    compare("65,537 bytes of text", &script(&" ".repeat(65_537)));
    for stack in [2, 8] {
        println!(
            "`(` so often, then Eof, in {stack} MiB of stack\n         Rust: overflow at {}",
            overflow(stack)
        );
    }
}

fn compare(name: &str, case: &Case) {
    told(name, case, outcome(case, LIMIT));
}

/// In rooms of so many node, link and symbol rows.
fn compare_in(name: &str, case: &Case, rows: [u32; 3]) {
    told(name, case, Known::of(case.clone(), LIMIT).comes(rooms_of(case, rows)));
}

fn told(name: &str, case: &Case, port: Outcome) {
    println!("{name}");
    if case.tokens.len() < 10 && case.text.len() < 100 {
        print!("{}", show::case(&case.encode()));
    }
    let given = printed(&port);
    println!(
        "         Rust: {}\n         port: {}",
        original(case),
        given.lines().next().unwrap_or_default()
    );
}

/// What the original does, with no door before it.
fn original(case: &Case) -> String {
    let text = str::from_utf8(&case.text).expect("UTF-8").to_string();
    let token = |token: &case::Token| {
        (oracle::kinds::TOKENS[token.kind as usize], Span { start: token.start, end: token.end })
    };
    let tokens: Vec<_> = case.tokens.iter().map(token).collect();
    fresh_interner(&[]);
    let compiler = Compiler::default();
    match silently(|| Parser::new(&text, tokens, &compiler).parse()) {
        Ok(Ok(ast)) => format!("accepts; the last row is {:?}", ast.last()),
        Ok(Err(error)) => format!("{} at {}..{}", error.message, error.span.start, error.span.end),
        Err(message) => format!("panics: {message}"),
    }
}

/// Parses so many opened parentheses in so many MiB of stack.
fn parentheses(times: usize, stack: usize) {
    let case = script(&"(".repeat(times));
    let thread = thread::Builder::new().stack_size(stack << 20).spawn(move || original(&case));
    thread.expect("a thread").join().expect("an answer");
}

/// The least number of parentheses that overflows the stack, to the nearest 10.
fn overflow(stack: usize) -> usize {
    let overflows = |times: usize| {
        let program = env::current_exe().expect("a path");
        let words = ["parentheses".to_string(), times.to_string(), stack.to_string()];
        !Command::new(program).args(words).output().expect("a run").status.success()
    };
    let (mut passes, mut fails) = (0, 200_000);
    while fails - passes > 10 {
        let middle = (passes + fails) / 2;
        if overflows(middle) {
            fails = middle;
        } else {
            passes = middle;
        }
    }
    fails
}
