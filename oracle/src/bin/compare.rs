//! compare N [[--guard] [--tight | --names] | --expected] [--edition E] [--batch] [--seed S] COMMAND..: runs N cases through the
//! original and through COMMAND.
use std::{
    process::ExitCode,
    time::{Duration, Instant},
};

use oracle::{
    beside,
    drawn::Cases,
    editions::{self, Sort},
    guards, questions,
    rooms::{Judge, Lent},
    show,
    shrink::{shrunk, shrunk_names},
    subject::{Answer, PATIENCE, Subject},
    tight,
    told::Question,
};

const USAGE: &str = "compare N [--seed S] COMMAND.. | compare N [[--guard] [--tight | --names] | --expected] [--edition E] [--seed S] --batch COMMAND..";

/// Which cases are run: inputs of `rows`, in rooms of chosen sizes, or beside built-in names, or asked about a refused token; with an
/// edition or without; and as scripts or as guards.
struct Options {
    count: u64,
    seed: u64,
    sort: Sort,
    asks: bool,
    is_guard: bool,
    edition: Option<u32>,
    subject: Subject,
}

impl Options {
    fn cases(&self) -> Box<dyn Iterator<Item = Vec<u8>> + Send> {
        if self.asks {
            return Box::new(questions::frames(self.edition, self.seed));
        }
        if self.is_guard {
            return Box::new(guards::frames(self.edition, self.seed, self.sort));
        }
        if let Some(edition) = self.edition {
            return Box::new(editions::frames(edition, self.seed, self.sort));
        }
        match self.sort {
            Sort::Plain => {
                let cases = Cases::new(self.seed);
                Box::new((0..).map(move |index| cases.get(index)))
            }
            Sort::Tight => Box::new(tight::frames(self.seed)),
            Sort::Named => Box::new(beside::frames(self.seed)),
        }
    }
}

fn main() -> ExitCode {
    let Some(options) = options(std::env::args().skip(1).collect()) else {
        eprintln!("usage: {USAGE}");
        return ExitCode::from(2);
    };
    oracle::with_large_stack(move || run(options))
}

fn options(words: Vec<String>) -> Option<Options> {
    let mut words = words.into_iter().peekable();
    let count = words.next()?.parse().ok()?;
    let (mut seed, mut batch, mut sort, mut edition) = (1, false, Sort::Plain, None);
    let (mut asks, mut is_guard) = (false, false);
    loop {
        match words.peek()?.as_str() {
            "--seed" => seed = words.nth(1)?.parse().ok()?,
            "--edition" => {
                edition = Some(words.nth(1)?.parse().ok().filter(|edition| [1, 2].contains(edition))?)
            }
            word => {
                match word {
                    "--batch" => batch = true,
                    "--tight" => sort = sort.max(Sort::Tight), // with names, too, rooms are those that tell
                    "--names" => sort = Sort::Named,
                    "--expected" => asks = true,
                    "--guard" => is_guard = true,
                    _ => break,
                }
                words.next();
            }
        }
    }
    let subject = Subject { words: words.collect(), batch };
    let is_plain = sort == Sort::Plain && edition.is_none() && !asks && !is_guard;
    let is_one = sort == Sort::Plain && !is_guard || !asks;
    let is_right = is_one && (batch || is_plain);
    is_right.then_some(Options { count, seed, sort, asks, is_guard, edition, subject })
}

/// The differences met so far.
#[derive(Default)]
struct Tally {
    judge: Judge,
    compared: u64,
    differences: u64,
    smallest: Option<Vec<u8>>,
}

impl Tally {
    fn add(&mut self, case: Vec<u8>, given: Answer) {
        self.compared += 1;
        if given.as_ref() == Ok(&self.judge.answer(&case)) {
            return;
        }
        self.differences += 1;
        if self.smallest.as_ref().is_none_or(|smallest| case.len() < smallest.len()) {
            self.smallest = Some(case);
        }
    }
}

fn run(options: Options) -> ExitCode {
    let Options { count, subject, .. } = &options;
    let mut cases = options.cases();
    let mut tally = Tally::default();
    let failure = if subject.batch {
        let sent = options.cases().take(*count as usize);
        let answered = subject.stream(sent, |given| {
            if tally.compared < *count {
                tally.add(cases.next().expect("cases do not end"), given);
                return true;
            }
            tally.differences += 1; // an answer to no case
            false
        });
        answered.err()
    } else {
        for case in cases.by_ref().take(*count as usize) {
            let start = Instant::now();
            let given = subject.one(&case);
            tally.add(case, given);
            if start.elapsed() >= PATIENCE {
                break;
            }
        }
        None
    };

    if let Some(failure) = &failure {
        println!("{failure}");
    }
    if tally.compared < *count {
        println!("the run ended after {} cases: the others count as differences", tally.compared);
        let unanswered = cases.next().expect("cases do not end");
        tally.differences += count - tally.compared;
        tally.smallest.get_or_insert(unanswered);
    } else if failure.is_some() {
        tally.differences += 1;
    }
    if let Some(case) = tally.smallest {
        show_smallest(case, subject);
    }
    println!("{count} cases, {} differences", tally.differences);
    ExitCode::from((tally.differences > 0) as u8)
}

fn show_smallest(case: Vec<u8>, subject: &Subject) {
    let mut judge = Judge::default();
    let start = Instant::now();
    let shrunk = if !differs(&case, subject, &mut judge) {
        println!("the difference is not there when the case is run alone");
        case
    } else if start.elapsed() > Duration::from_secs(2) {
        case // to run it again and again would take too long
    } else if let Some(lent) = Lent::decode(&case) {
        shrunk_in_rooms(case, lent, subject, &mut judge)
    } else if let Some(question) = Question::decode(&case) {
        shrunk_question(case, question, subject, &mut judge)
    } else {
        shrunk(case, |case| differs(case, subject, &mut judge))
    };
    print!("the smallest case that differs:\n{}", show::case(&shrunk));
    print!("Rust\n{}", show::answer(&judge.answer(&shrunk)));
    match subject.one(&shrunk) {
        Ok(given) => print!("program\n{}", show::answer(&given)),
        Err(failure) => println!("program\n         {failure}"),
    }
}

fn differs(case: &[u8], subject: &Subject, judge: &mut Judge) -> bool {
    subject.one(case).as_ref() != Ok(&judge.answer(case))
}

/// The first of these frames that differs.
fn differing(frames: Vec<Vec<u8>>, subject: &Subject, judge: &mut Judge) -> Option<Vec<u8>> {
    let (mut compared, mut found) = (0, None);
    let failure = subject.stream(frames.clone().into_iter(), |given| {
        let Some(frame) = frames.get(compared) else { return false };
        compared += 1;
        if given.as_ref() != Ok(&judge.answer(frame)) {
            found = Some(frame.clone());
        }
        found.is_none()
    });
    if failure.is_err() {
        found = found.or(frames.get(compared).cloned());
    }
    found
}

/// A smaller input, or fewer names, make for other rooms, so for each all rooms are tried that may tell.
fn shrunk_in_rooms(case: Vec<u8>, lent: Lent, subject: &Subject, judge: &mut Judge) -> Vec<u8> {
    let mut smallest = case;
    let mut differs = |lent: &Lent| {
        let found = differing(tight::tried(lent), subject, judge);
        smallest = found.clone().unwrap_or(std::mem::take(&mut smallest));
        found.is_some()
    };
    let with_input = |input: &[u8]| Lent { input: input.to_vec(), ..lent.clone() };
    let input = shrunk(lent.input.clone(), |input| differs(&with_input(input)));
    if let Some(names) = lent.names.clone() {
        shrunk_names(names, |names| differs(&Lent { names: Some(names.clone()), ..with_input(&input) }));
    }
    smallest
}

/// A smaller input is refused elsewhere, so for each all codes and tokens are tried.
fn shrunk_question(case: Vec<u8>, question: Question, subject: &Subject, judge: &mut Judge) -> Vec<u8> {
    let mut smallest = case;
    shrunk(question.input.clone(), |input| {
        let found =
            differing(questions::tried(&Question { input: input.to_vec(), ..question }), subject, judge);
        smallest = found.clone().unwrap_or(std::mem::take(&mut smallest));
        found.is_some()
    });
    smallest
}
