//! verdicts N [--seed S] COMMAND..: runs N row sets through the checker of `verdicts.rs` and through COMMAND.
//! verdicts --fixed IN OUT: writes the fixed list of row sets, and the answers to them.
use std::{fs, process::ExitCode, time::Instant};

use oracle::{
    frame,
    rowsets::{OUTCOMES, SORTS, Sets, Sort, chosen, outcome},
    show,
    shrink::shrunk_set,
    subject::{Answer, PATIENCE, Subject},
    texts::encoded,
    verdicts::RowSet,
};

const USAGE: &str = "verdicts N [--seed S] COMMAND.. | verdicts --fixed IN OUT";

enum Task {
    Compare { count: u64, seed: u64, subject: Subject },
    Fix { read: String, written: String },
}

fn main() -> ExitCode {
    let Some(task) = task(std::env::args().skip(1).collect()) else {
        eprintln!("usage: {USAGE}");
        return ExitCode::from(2);
    };
    oracle::with_large_stack(move || match task {
        Task::Compare { count, seed, subject } => compare(count, seed, subject),
        Task::Fix { read, written } => fix(&read, &written),
    })
}

fn task(words: Vec<String>) -> Option<Task> {
    if let [option, read, written] = &words[..]
        && option == "--fixed"
    {
        return Some(Task::Fix { read: read.clone(), written: written.clone() });
    }
    let mut words = words.into_iter().peekable();
    let count = words.next()?.parse().ok()?;
    let mut seed = 1;
    if words.peek()? == "--seed" {
        seed = words.nth(1)?.parse().ok()?;
        words.peek()?;
    }
    Some(Task::Compare { count, seed, subject: Subject { words: words.collect(), batch: true } })
}

/// How often each outcome came, by the sort of the set.
#[derive(Default)]
struct Outcomes([[u64; OUTCOMES]; SORTS.len()]);

impl Outcomes {
    fn add(&mut self, sort: Sort, set: &RowSet) {
        self.0[sort as usize][outcome(set.verdict())] += 1;
    }

    /// Prints the counts, and says whether each outcome came.
    fn print(&self) -> bool {
        let name = |outcome: usize| match outcome {
            0..3 => ["0", "15", "21"][outcome].to_string(),
            rule => format!("22.{}", rule - 2),
        };
        let line = |lead: &str, cells: Vec<String>| {
            let cells: String = cells.iter().map(|cell| format!("{cell:>8}")).collect();
            println!("{lead:<8}{cells}");
        };
        line("", (0..OUTCOMES).map(name).collect());
        for (sort, counts) in SORTS.iter().zip(&self.0) {
            line(&format!("{sort:?}").to_lowercase(), counts.iter().map(u64::to_string).collect());
        }
        let is_missing = |outcome: &usize| self.0.iter().all(|counts| counts[*outcome] == 0);
        let missing: Vec<_> = (0..OUTCOMES).filter(is_missing).map(name).collect();
        if !missing.is_empty() {
            println!("no row set comes to {}", missing.join(", "));
        }
        missing.is_empty()
    }
}

/// The differences met so far.
#[derive(Default)]
struct Tally {
    compared: u64,
    differences: u64,
    smallest: Option<RowSet>,
    outcomes: Outcomes,
}

impl Tally {
    fn add(&mut self, (sort, set): (Sort, RowSet), given: Answer) {
        self.compared += 1;
        self.outcomes.add(sort, &set);
        if given == Ok(encoded(&set.answer())) {
            return;
        }
        self.differences += 1;
        let size = |set: &RowSet| set.encode().len();
        if self.smallest.as_ref().is_none_or(|smallest| size(&set) < size(smallest)) {
            self.smallest = Some(set);
        }
    }
}

fn compare(count: u64, seed: u64, subject: Subject) -> ExitCode {
    let (sets, sent) = (Sets::new(seed), Sets::new(seed));
    let mut tally = Tally::default();
    let answered = subject.stream((0..count).map(move |index| sent.get(index).1.encode()), |given| {
        if tally.compared < count {
            tally.add(sets.get(tally.compared), given);
            return true;
        }
        tally.differences += 1; // an answer to no row set
        false
    });
    if let Err(failure) = &answered {
        println!("{failure}");
    }
    if tally.compared < count {
        println!("the run ended after {} row sets: the others count as differences", tally.compared);
        tally.differences += count - tally.compared;
        tally.smallest.get_or_insert(sets.get(tally.compared).1);
    } else if answered.is_err() {
        tally.differences += 1;
    }
    if let Some(set) = tally.smallest {
        show_smallest(set, &subject);
    }
    let is_covered = tally.outcomes.print();
    println!("{count} row sets, {} differences", tally.differences);
    ExitCode::from((tally.differences > 0 || !is_covered) as u8)
}

fn show_smallest(set: RowSet, subject: &Subject) {
    let differs = |set: &RowSet| subject.one(&set.encode()) != Ok(encoded(&set.answer()));
    let start = Instant::now();
    let set = if differs(&set) {
        shrunk_set(set, |set| start.elapsed() < PATIENCE && differs(set))
    } else {
        println!("the difference is not there when the row set is run alone");
        set
    };
    print!("the smallest row set that differs:\n{}", show::row_set(&set));
    print!("oracle\n{}", show::verdict(&set.answer()));
    match subject.one(&set.encode()) {
        Ok(given) => print!("program\n{}", show::verdict(&numbers(&given))),
        Err(failure) => println!("program\n         {failure}"),
    }
}

fn numbers(bytes: &[u8]) -> Vec<u32> {
    bytes.chunks_exact(4).map(|four| u32::from_le_bytes(four.try_into().expect("four"))).collect()
}

fn fix(read: &str, written: &str) -> ExitCode {
    let (mut frames, mut answers, mut outcomes) = (Vec::new(), Vec::new(), Outcomes::default());
    let sets = chosen();
    for (sort, set) in &sets {
        outcomes.add(*sort, set);
        frame::write(&mut frames, &set.encode()).expect("memory");
        frame::write(&mut answers, &encoded(&set.answer())).expect("memory");
    }
    let is_covered = outcomes.print();
    println!("{} row sets, {} and {} bytes", sets.len(), frames.len(), answers.len());
    fs::write(read, frames).expect("the list can be written");
    fs::write(written, answers).expect("the answers can be written");
    ExitCode::from(!is_covered as u8)
}
