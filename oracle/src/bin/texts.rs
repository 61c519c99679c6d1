//! texts N [--seed S] COMMAND..: runs N texts through the token maker of `lexer.rs` and through COMMAND.
use std::{collections::BTreeMap, process::ExitCode};

use oracle::{
    lexer::Lexer,
    subject::{Answer, Subject},
    texts::{Text, Texts, encoded},
};

const USAGE: &str = "texts N [--seed S] COMMAND..";

struct Options {
    count: u64,
    seed: u64,
    subject: Subject,
}

fn main() -> ExitCode {
    let Some(options) = options(std::env::args().skip(1).collect()) else {
        eprintln!("usage: {USAGE}");
        return ExitCode::from(2);
    };
    run(options)
}

fn options(words: Vec<String>) -> Option<Options> {
    let mut words = words.into_iter().peekable();
    let count = words.next()?.parse().ok()?;
    let mut seed = 1;
    if words.peek()? == "--seed" {
        seed = words.nth(1)?.parse().ok()?;
        words.peek()?;
    }
    Some(Options { count, seed, subject: Subject { words: words.collect(), batch: true } })
}

/// The differences met so far, and how many texts have each code, and a size or a number of tokens near its limit.
#[derive(Default)]
struct Tally {
    compared: u64,
    differences: u64,
    first: Option<(Text, Answer)>,
    codes: BTreeMap<u32, u64>,
    sizes: BTreeMap<usize, u64>,
    counts: BTreeMap<usize, u64>,
}

impl Tally {
    fn add(&mut self, text: Text, given: Answer, lexer: &Lexer) {
        self.compared += 1;
        let answer = text.answer(lexer);
        *self.codes.entry(answer[0]).or_default() += 1;
        let size = text.bytes.len();
        if size >= 65_535 {
            *self.sizes.entry(size).or_default() += 1;
        }
        if let 0 | 1 = answer[0] {
            let count = lexer.tokens(&text.bytes).map_or(0, |tokens| tokens.len());
            if (4_095..=4_097).contains(&count) {
                *self.counts.entry(count).or_default() += 1;
            }
        }
        if given.as_ref() != Ok(&encoded(&answer)) {
            self.differences += 1;
            self.first.get_or_insert((text, given));
        }
    }
}

fn run(Options { count, seed, subject }: Options) -> ExitCode {
    let (lexer, texts, sent) = (Lexer::new(), Texts::new(seed), Texts::new(seed));
    let mut tally = Tally::default();
    let answered = subject.stream((0..count).map(move |index| sent.get(index).encode()), |given| {
        if tally.compared < count {
            tally.add(texts.get(tally.compared), given, &lexer);
            return true;
        }
        tally.differences += 1; // an answer to no text
        false
    });
    if let Err(failure) = &answered {
        println!("{failure}");
    }
    if tally.compared < count {
        println!("{} texts answered", tally.compared);
        tally.differences += count - tally.compared;
        tally.first.get_or_insert((texts.get(tally.compared), Err("no answer".into())));
    } else if answered.is_err() {
        tally.differences += 1;
    }
    if let Some((text, given)) = tally.first {
        println!("the first text that differs, with a list room of {} numbers:", text.room);
        println!("         \"{}\"", text.bytes.escape_ascii());
        println!("lexer\n         {:?}", text.answer(&lexer));
        match given {
            Ok(bytes) => println!("program\n         {:?}", numbers(&bytes)),
            Err(failure) => println!("program\n         {failure}"),
        }
    }
    println!("{}", listed(&tally.codes, |code| format!("of code {code}")));
    println!("{}", listed(&tally.sizes, |size| format!("of {size} bytes")));
    println!("{}", listed(&tally.counts, |count| format!("of {count} tokens")));
    println!("{count} texts, {} differences", tally.differences);
    ExitCode::from((tally.differences > 0) as u8)
}

fn listed<T>(counts: &BTreeMap<T, u64>, told: impl Fn(&T) -> String) -> String {
    let counts: Vec<_> = counts.iter().map(|(item, count)| format!("{count} {}", told(item))).collect();
    counts.join(", ")
}

fn numbers(bytes: &[u8]) -> Vec<u32> {
    bytes.chunks_exact(4).map(|four| u32::from_le_bytes(four.try_into().expect("four"))).collect()
}
