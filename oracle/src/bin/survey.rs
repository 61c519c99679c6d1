//! survey N [--tight | --names | --edition | --expected] [SEED]: what N generated cases cover. With --guard what N guards do, of
//! edition 2 with --edition, and what is missing.
use std::process::ExitCode;

use oracle::{
    beside,
    coverage::Coverage,
    drawn::Cases,
    editions::{self, Sort},
    guards, questions,
    terms::SECOND,
    tight,
};

fn main() -> ExitCode {
    let (words, sort): (Vec<_>, Vec<_>) = std::env::args().skip(1).partition(|word| !word.starts_with("--"));
    let mut words = words.iter().map(|word| word.parse::<u64>());
    let Some(Ok(count)) = words.next() else {
        eprintln!("usage: survey N [--guard] [--tight | --names | --edition | --expected] [SEED]");
        return ExitCode::from(2);
    };
    let seed = words.next().and_then(Result::ok).unwrap_or(1);
    oracle::with_large_stack(move || {
        let has = |word: &str| sort.iter().any(|given| given == word);
        if has("--guard") {
            let edition = has("--edition").then_some(SECOND);
            let sort = match (has("--names"), has("--tight")) {
                (true, _) => Sort::Named,
                (_, true) => Sort::Tight,
                _ => Sort::Plain,
            };
            let frames = guards::frames(edition, seed, sort).take(count as usize);
            let covered = Coverage::of_rooms(frames).print_guards(edition, sort);
            return ExitCode::from(!covered as u8);
        }
        let frames: Box<dyn Iterator<Item = Vec<u8>>> = match sort.first().map(String::as_str) {
            None => {
                let cases = Cases::new(seed);
                let covered = Coverage::of((0..count).map(|index| cases.get(index))).print();
                return ExitCode::from(!covered as u8);
            }
            Some("--expected") => {
                Coverage::of_questions(questions::frames(None, seed).take(count as usize)).print_shown();
                return ExitCode::SUCCESS;
            }
            Some("--names") => Box::new(beside::frames(seed)),
            Some("--edition") => Box::new(editions::frames(SECOND, seed, Sort::Plain)),
            Some(_) => Box::new(tight::frames(seed)),
        };
        Coverage::of_rooms(frames.take(count as usize)).print_shown();
        ExitCode::SUCCESS
    })
}
