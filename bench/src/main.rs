//! Times the proved reader and the Rust parser of the source documents in one process, on the same inputs.
//!
//! Both start from a text and its tokens. The proved reader gets lent rooms, of as many rows as there are tokens, which
//! hold what the last run left; it leaves zeros past its rows itself. The Rust gets a token list of its own, made before
//! the clock starts, and an empty interner; its tree is freed after the clock has stopped. Columns take turns; a call is
//! timed by itself, after one like it that is not counted, and the median counts.
//!
//! The text columns start from the text alone. The Rust side is the lexer of lexer.rs and then the parser, both in its
//! time. That lexer is the bench's own and not logos, so these columns are no comparison with Kaori's lexer.
//!
//! Two inputs stand beside 64 built-in names, outside the ratios of the last line. The proved reader looks the names over in
//! each call, in its time; the Rust's interner is given them before the clock starts.
//!
//! A second table has scripts that are refused at their end: what reading them up to there takes, and what it takes to tell
//! what could have stood there. The Rust has nothing to compare with. A third has rows that are checked as if another build had
//! written them, good ones and hostile ones. A fourth has a script 32 times, as a station has its scripts: in one call, and in
//! 32 calls, each into rooms of its own. A fifth has scripts of which every second statement is dropped where its rows stand,
//! beside reading the whole list and reading what is kept of it.
mod dropping;
mod foreign;
mod inputs;
mod lexer;
mod station;

use std::{
    env::consts::ARCH,
    hint::black_box,
    num::NonZero,
    time::{Duration, Instant},
};

use dropping::Half;
use inputs::Input;
use kaori::{
    compiler::{Compiler, INTERNER, fresh_interner},
    syntax::{
        ast::Ast,
        parser::Parser,
        token::{Span, Token},
    },
};
use kaori_syntax::{MAX_SCRIPTS, Rooms, TurnedAway, expected};
use oracle::lexer::Lexer;
use station::Copies;

const LIMIT: u32 = 64;

/// `Token` in its own order.
#[rustfmt::skip]
const TOKENS: [Token; 45] = {
    use Token::*;
    [
        Assign, Plus, Minus, Multiply, Caret, Divide, Modulo, NotEqual, Equal, GreaterEqual, LessEqual, Greater, Less,
        Comma, Colon, Dot, Pipe, LeftParen, RightParen, Hash, LeftBrace, RightBrace, And, Or, Not, Let, Const, Ref,
        Function, For, While, Break, Continue, If, Else, Return, Import, True, False, Nil, NumberLiteral, Semicolon,
        StringLiteral, Identifier, Eof,
    ]
};

fn main() {
    let seconds = std::env::args().nth(1).and_then(|word| word.parse().ok()).unwrap_or(2.0);
    let time = Duration::try_from_secs_f64(seconds).unwrap_or(Duration::from_secs(2));
    // the Rust's parser recurses without a limit
    std::thread::Builder::new().stack_size(64 << 20).spawn(move || bench(time)).unwrap().join().unwrap();
}

/// The medians of an input, in nanoseconds a call.
struct Times {
    ours: f64,
    rust: f64,
    door: f64,
    wide: f64,
    full: f64,
    text: f64,
    rust_text: f64,
    runs: usize,
}

fn bench(time: Duration) {
    let cores = std::thread::available_parallelism().map_or(1, NonZero::get);
    println!("{ARCH}, {cores} cores; tokens to tree, then text to tree; median nanoseconds a token");
    println!(
        "this reader's rooms are lent and not cleared between runs; it clears what it does not use, in its time"
    );
    println!(
        "{:<22}{:>7}{:>8}{:>8}{:>7} |{:>7}{:>8}{:>7} |{:>7}{:>9}{:>9}{:>8}{:>8}",
        "input",
        "tokens",
        "this",
        "Rust",
        "ratio",
        "text",
        "Rust",
        "ratio",
        "door",
        "reading",
        "zeroing",
        "4096",
        "runs"
    );
    let (mut typical, mut worst) = (f64::MAX, f64::MAX);
    for input in inputs::all() {
        let t = measure(&input, time);
        let tokens = (input.tokens.len() / 3) as f64;
        let ratio = t.rust / t.ours;
        if input.typical {
            typical = typical.min(ratio);
        }
        if input.names.is_empty() {
            worst = worst.min(ratio);
        }
        // rooms of twice the rows have as many numbers more to clear as there are in these
        let zeroing = (t.wide - t.ours) / input.lent as f64 * input.cleared as f64;
        let reading = t.ours - t.door - zeroing;
        let per = |ns: f64| format!("{:.1}", ns / tokens);
        println!(
            "{:<22}{tokens:>7}{:>8}{:>8}{ratio:>7.2} |{:>7}{:>8}{:>7.2} |{:>7}{:>9}{:>9}{:>8}{:>8}",
            input.name,
            per(t.ours),
            per(t.rust),
            per(t.text),
            per(t.rust_text),
            t.rust_text / t.text,
            per(t.door),
            per(reading),
            per(zeroing),
            per(t.full),
            t.runs
        );
    }
    println!("ratio: the Rust's time by this reader's; above 1 this reader is faster");
    println!("text: text to tree; the Rust beside it is a lexer of the bench's own and then the Rust parser");
    println!("that lexer has the patterns of Kaori's but is not logos: no comparison with Kaori's lexer");
    println!("door: a call that the door refuses at the last token but one; reading: what is left of `this`");
    println!("zeroing: the numbers past the rows, at the price of a number in rooms of twice the rows");
    println!("4096: the same call in rooms of 4,096 rows");
    println!(
        "typical: the lesser ratio of the screen and the large script; worst: the least of all; tokens to tree; \
         both without the lines with built-in names"
    );
    println!(
        "64 names: this reader looks the names over in each call; the Rust's interner has them before the clock starts"
    );
    refusals(time);
    checks(time);
    scripts(time);
    drops(time);
    println!("typical {typical:.2}, worst {worst:.2}");
}

/// What it adds to a refusal to tell what could have stood there.
fn refusals(time: Duration) {
    println!("refusals; median nanoseconds a token");
    println!(
        "{:<22}{:>7}{:>6}{:>7}{:>6}{:>8}{:>8}{:>7}{:>8}",
        "input", "tokens", "code", "kinds", "open", "read", "told", "ratio", "runs"
    );
    for input in inputs::refusals() {
        let mut rooms = input.rooms();
        let why = input.parse(&mut rooms, &input.tokens, LIMIT).expect_err("a refusal");
        let answer = expected(&input.tokens, why);
        let [mut read, mut told]: [Vec<u64>; 2] = Default::default();
        let end = Instant::now() + time;
        while read.is_empty() || Instant::now() < end {
            read.push(second(|| clock(|| input.parse(&mut rooms, &input.tokens, LIMIT).is_ok())));
            told.push(second(|| clock(|| expected(&input.tokens, why))));
        }
        let (runs, tokens) = (read.len(), (input.tokens.len() / 3) as f64);
        let [read, told] = [read, told].map(median);
        println!(
            "{:<22}{tokens:>7}{:>6}{:>7}{:>6}{:>8.1}{:>8.1}{:>7.2}{runs:>8}",
            input.name,
            why.code as u32,
            answer.count(),
            answer.open().len(),
            read / tokens,
            told / tokens,
            (read + told) / read,
        );
    }
    println!("read: tokens to the refusal; told: what could have stood there; ratio: both by the first");
}

/// What it takes to check rows.
fn checks(time: Duration) {
    println!("rows of another build; median nanoseconds a row or link");
    println!(
        "{:<22}{:>7}{:>7}{:>6}{:>6}{:>6}{:>8}{:>8}",
        "input", "rows", "links", "code", "rule", "row", "check", "runs"
    );
    for mut rows in foreign::all() {
        let (code, rule, row) = match rows.check() {
            Ok(_) => (0, 0, 0),
            Err(why) => (why.code as u32, why.rule.map_or(0, |rule| rule as u32), why.row),
        };
        let mut times = Vec::new();
        let end = Instant::now() + time;
        while times.is_empty() || Instant::now() < end {
            times.push(second(|| clock(|| rows.check().is_ok())));
        }
        let (runs, [nodes, links, _]) = (times.len(), rows.counts());
        println!(
            "{:<22}{nodes:>7}{links:>7}{code:>6}{rule:>6}{row:>6}{:>8.1}{runs:>8}",
            rows.name,
            median(times) / f64::from(nodes + links)
        );
    }
}

/// What it takes to read a station's scripts together, and one by one.
fn scripts(time: Duration) {
    println!("a station's scripts: 32 of them; median nanoseconds a token");
    println!(
        "{:<22}{:>7}{:>8}{:>8}{:>9}{:>7}{:>7} |{:>8}{:>8}{:>9}{:>7}{:>7}{:>8}",
        "input",
        "tokens",
        "32",
        "joined",
        "station",
        "ratio",
        "ratio",
        "text",
        "joined",
        "station",
        "ratio",
        "ratio",
        "runs"
    );
    for input in inputs::all().iter().filter(|input| input.typical || !input.names.is_empty()) {
        let mut copies = Copies::of(input);
        assert_eq!([copies.parse_calls(), copies.read_calls()], [MAX_SCRIPTS; 2], "{}", input.name);
        let mut times: [Vec<u64>; 6] = Default::default();
        let end = Instant::now() + time;
        while times[0].is_empty() || Instant::now() < end {
            times[0].push(second(|| clock(|| copies.parse_calls())));
            times[1].push(second(|| whole(|| copies.parse_joined())));
            times[2].push(second(|| whole(|| copies.parse_station())));
            times[3].push(second(|| clock(|| copies.read_calls())));
            times[4].push(second(|| whole(|| copies.read_joined())));
            times[5].push(second(|| whole(|| copies.read_station())));
        }
        let (runs, tokens) = (times[0].len(), input.tokens.len() / 3 * MAX_SCRIPTS);
        let per = |ns: f64| format!("{:.1}", ns / tokens as f64);
        let [calls, joined, station, text, text_joined, text_station] = times.map(median);
        println!(
            "{:<22}{tokens:>7}{:>8}{:>8}{:>9}{:>7.2}{:>7.2} |{:>8}{:>8}{:>9}{:>7.2}{:>7.2}{runs:>8}",
            input.name,
            per(calls),
            per(joined),
            per(station),
            calls / joined,
            calls / station,
            per(text),
            per(text_joined),
            per(text_station),
            text / text_joined,
            text / text_station,
        );
    }
    println!("32: tokens to trees in 32 calls, each into rooms of its own; text: the same from the texts");
    println!(
        "joined: one call over texts and lists that are joined before; station: one that joins them, in its time"
    );
    println!(
        "ratio: the time of 32 calls by that of one, of `joined` and of `station`; above 1 one call is faster"
    );
}

/// What it takes to drop half of a script's statements, and to read it, whole and short.
fn drops(time: Duration) {
    println!("every second statement dropped; median nanoseconds a token of the whole list");
    println!(
        "{:<22}{:>7}{:>7}{:>6}{:>8}{:>8}{:>8}{:>7}{:>7}{:>8}",
        "input", "tokens", "kept", "drop", "whole", "short", "drop", "ratio", "ratio", "runs"
    );
    for input in inputs::all().iter().filter(|input| !input.refused) {
        let mut half = Half::of(input);
        half.agree();
        let [mut whole, mut short, mut drop]: [Vec<u64>; 3] = Default::default();
        let end = Instant::now() + time;
        while whole.is_empty() || Instant::now() < end {
            whole.push(second(|| clock(|| half.read(false))));
            short.push(second(|| clock(|| half.read(true))));
            drop.push(second(|| {
                half.again();
                clock(|| half.drop().is_ok())
            }));
        }
        let (runs, tokens) = (whole.len(), (input.tokens.len() / 3) as f64);
        let [whole, short, drop] = [whole, short, drop].map(median);
        println!(
            "{:<22}{tokens:>7}{:>7}{:>6}{:>8.1}{:>8.1}{:>8.1}{:>7.2}{:>7.2}{runs:>8}",
            input.name,
            half.shorter.len() / 3,
            half.choice.iter().filter(|&&kept| !kept).count(),
            whole / tokens,
            short / tokens,
            drop / tokens,
            short / drop,
            whole / drop,
        );
    }
    println!(
        "kept: the tokens that are left; drop: the statements that are dropped, and then what that takes"
    );
    println!("whole: tokens to tree; short: the same of the tokens that are kept");
    println!(
        "ratio: the time of reading what is kept, and of reading all, by that of dropping; above 1 dropping is faster"
    );
}

/// The nanoseconds of a call that reads all scripts.
fn whole(work: impl FnOnce() -> Result<usize, TurnedAway>) -> u64 {
    clock(|| assert_eq!(work(), Ok(MAX_SCRIPTS)))
}

fn measure(input: &Input, time: Duration) -> Times {
    let mut rooms = input.rooms();
    let mut wide = rooms.clone();
    for room in [&mut wide.nodes, &mut wide.links, &mut wide.symbols, &mut wide.scratch] {
        room.resize(2 * room.len(), 0);
    }
    let mut full = Rooms::for_tokens_with(input.builtins.lend(), 4096);
    let rust_tokens: Vec<(Token, Span)> =
        input.tokens.chunks(3).map(|t| (TOKENS[t[0] as usize], Span { start: t[1], end: t[2] })).collect();
    let turned = turned_away(&input.tokens);
    let compiler = Compiler::default();
    agree(input, &rust_tokens, &turned, &mut rooms);

    let mut times: [Vec<u64>; 7] = Default::default();
    let end = Instant::now() + time;
    while times[0].is_empty() || Instant::now() < end {
        times[0].push(second(|| clock(|| input.parse(&mut rooms, &input.tokens, LIMIT).is_ok())));
        times[1].push(second(|| {
            fresh_interner(input.names);
            let list = rust_tokens.clone();
            clock(|| Parser::new(&input.text, list, &compiler).parse())
        }));
        times[2].push(second(|| clock(|| input.parse(&mut rooms, &turned, LIMIT).is_ok())));
        times[3].push(second(|| clock(|| input.parse(&mut wide, &input.tokens, LIMIT).is_ok())));
        times[4].push(second(|| clock(|| input.parse(&mut full, &input.tokens, LIMIT).is_ok())));
        times[5].push(second(|| clock(|| input.read(&mut rooms, LIMIT).is_ok())));
        times[6].push(second(|| {
            fresh_interner(input.names);
            clock(|| lexer::tokens(&input.text).map(|list| Parser::new(&input.text, list, &compiler).parse()))
        }));
    }
    let runs = times[0].len();
    let [ours, rust, door, wide, full, text, rust_text] = times.map(median);
    Times { ours, rust, door, wide, full, text, rust_text, runs }
}

/// Both sides answer alike, by the number of nodes and of symbols or by the place of the refusal, the door refuses the list that is made for it, and the token maker, the Rust lexer and the
/// oracle's make the input's tokens.
fn agree(input: &Input, rust_tokens: &[(Token, Span)], turned: &[u32], rooms: &mut Rooms) {
    let (name, text) = (input.name, input.text.as_bytes());
    let numbers = |list: &[(Token, Span)]| -> Vec<u32> {
        list.iter().flat_map(|&(token, span)| [token as u32, span.start, span.end]).collect()
    };
    assert_eq!(numbers(rust_tokens), input.tokens, "{name}: the order of `TOKENS`");
    assert_eq!(numbers(&lexer::tokens(&input.text).unwrap()), input.tokens, "{name}: the Rust lexer");
    assert_eq!(Lexer::new().tokens(text).unwrap().as_flattened(), input.tokens, "{name}: the oracle's lexer");
    fresh_interner(input.names);
    let compiler = Compiler::default();
    let rust = Parser::new(&input.text, rust_tokens.to_vec(), &compiler).parse();
    match (input.parse(rooms, &input.tokens, LIMIT), rust) {
        (Ok(tree), Ok(ast)) => {
            // no script has it: its number is the count
            let next = INTERNER.lock().unwrap().get_or_intern("§");
            assert_eq!(next.0 as usize, tree.symbol_rows().len(), "{name}: the number of symbols");
            // a tree of as many nodes has the same last one
            let mut other = Ast::default();
            let last = tree.rows().map(|_| other.nil(Span::default())).last();
            assert_eq!(last, Some(ast.last()), "{name}: the number of nodes");
        }
        (Err(ours), Err(error)) => {
            assert_eq!((ours.span.start, ours.span.end), (error.span.start, error.span.end), "{name}")
        }
        (ours, rust) => panic!("{name}: {:?} and {:?}", ours.err(), rust.err()),
    }
    let refusal = input.parse(rooms, turned, LIMIT).unwrap_err();
    assert_eq!((refusal.code as u32, refusal.at as usize), (6, input.tokens.len() / 3 - 2), "{name}");
    assert_eq!(input.read(rooms, LIMIT).is_err(), input.refused, "{name}");
    assert_eq!(rooms.list, input.tokens, "{name}");
}

/// The list with a kind that does not fit its lexeme at the last token but one: the door looks at all but Eof and then
/// refuses.
fn turned_away(tokens: &[u32]) -> Vec<u32> {
    let mut list = tokens.to_vec();
    let kind = list.len() - 6;
    list[kind] = if list[kind] == 0 { 1 } else { 0 };
    list
}

/// The time of a call that follows one like it: caches and heap are as its own kind leaves them, in whatever order the
/// columns stand.
fn second(mut call: impl FnMut() -> u64) -> u64 {
    call();
    call()
}

/// The nanoseconds of a call; its answer is dropped after the clock has stopped.
fn clock<T>(work: impl FnOnce() -> T) -> u64 {
    let start = Instant::now();
    let answer = black_box(work());
    let time = start.elapsed().as_nanos() as u64;
    drop(answer);
    time
}

fn median(mut times: Vec<u64>) -> f64 {
    times.sort_unstable();
    times[times.len() / 2] as f64
}
