//! drops N [--seed S] COMMAND.. [--batch BATCH..]: runs N choices through the judge of `drops.rs` and through COMMAND; and the whole and the
//! shorter list of those that are a script's own through BATCH, the program `batch`.
//! drops --fixed IN OUT: writes the fixed list of choices, and the answers to them.
use std::{
    fs,
    process::ExitCode,
    sync::mpsc::{Receiver, channel, sync_channel},
    thread,
    time::Instant,
};

use oracle::{
    choices::{Choice, Choices, SORTS},
    drops::{Dropping, Script, accepted, asked, difference},
    frame,
    kept::written,
    show,
    shrink::shrunk_dropping,
    subject::{Answer, PATIENCE, Subject},
};

const USAGE: &str = "drops N [--seed S] COMMAND.. [--batch BATCH..] | drops --fixed IN OUT";

enum Task {
    Compare { count: u64, seed: u64, subject: Subject, batch: Option<Subject> },
    Fix { read: String, written: String },
}

fn main() -> ExitCode {
    let Some(task) = task(std::env::args().skip(1).collect()) else {
        eprintln!("usage: {USAGE}");
        return ExitCode::from(2);
    };
    oracle::with_large_stack(move || match task {
        Task::Compare { count, seed, subject, batch } => compare(count, seed, subject, batch),
        Task::Fix { read, written } => fix(&read, &written),
    })
}

fn task(mut words: Vec<String>) -> Option<Task> {
    if let [option, read, written] = &words[..]
        && option == "--fixed"
    {
        return Some(Task::Fix { read: read.clone(), written: written.clone() });
    }
    let subject = |words: Vec<String>| (!words.is_empty()).then_some(Subject { words, batch: true });
    let mut batch = None;
    if let Some(place) = words.iter().position(|word| word == "--batch") {
        batch = Some(subject(words.split_off(place).split_off(1))?);
    }
    let mut words = words.into_iter().peekable();
    let count = words.next()?.parse().ok()?;
    let mut seed = 1;
    if words.peek()? == "--seed" {
        seed = words.nth(1)?.parse().ok()?;
    }
    Some(Task::Compare { count, seed, subject: subject(words.collect())?, batch })
}

/// The codes, in the order of checking.
const CODES: [u32; 5] = [0, 15, 21, 22, 20];

/// How often each code came, by the sort of the choice; and of the scripts' own what was kept, and how many had built-in names.
#[derive(Default)]
struct Outcomes {
    codes: [[u64; CODES.len()]; SORTS.len()],
    kept: [u64; 3],
    named: u64,
    /// Readings that `batch` was asked for.
    read: u64,
}

impl Outcomes {
    fn add(&mut self, choice: &Choice) {
        let Choice { sort, dropping, .. } = choice;
        let [code, ..] = dropping.verdict();
        let code = CODES.iter().position(|one| *one == code).expect("one of them");
        self.codes[*sort as usize][code] += 1;
        if choice.is_own() {
            let kept = dropping.choice.iter().filter(|kept| **kept != 0).count();
            let which = if kept == dropping.choice.len() { 0 } else { 1 + (kept > 0) as usize };
            self.kept[which] += 1;
            self.named += (dropping.builtins > 0) as u64;
        }
    }

    /// Prints the counts, and says whether each came.
    fn print(&self) -> bool {
        let line = |lead: &str, cells: Vec<String>| {
            let cells: String = cells.iter().map(|cell| format!("{cell:>9}")).collect();
            println!("{lead:<8}{cells}");
        };
        line("", CODES.iter().map(u32::to_string).collect());
        for (sort, counts) in SORTS.iter().zip(&self.codes) {
            line(&format!("{sort:?}").to_lowercase(), counts.iter().map(u64::to_string).collect());
        }
        let [all, none, some] = self.kept;
        println!("own     {all} keep all, {none} none, {some} some; {} beside built-in names", self.named);
        println!("batch   {} lists", self.read);
        let is_missing = |code: &usize| self.codes.iter().all(|counts| counts[*code] == 0);
        let mut missing: Vec<_> =
            (0..CODES.len()).filter(is_missing).map(|code| CODES[code].to_string()).collect();
        if self.kept.contains(&0) || self.named == 0 {
            missing.push("each sort of a script's own".into());
        }
        if !missing.is_empty() {
            println!("no choice comes to {}", missing.join(", "));
        }
        missing.is_empty()
    }
}

/// The differences met so far.
struct Tally {
    compared: u64,
    differences: u64,
    smallest: Option<Choice>,
    outcomes: Outcomes,
    /// What `batch` answers of the lists, in order.
    lists: Option<Receiver<(Vec<u8>, Answer)>>,
}

impl Tally {
    fn add(&mut self, choice: Choice, given: Answer) {
        self.compared += 1;
        self.outcomes.add(&choice);
        let is_same = is_right(&choice, given);
        if self.agrees(&choice) && is_same {
            return;
        }
        self.differences += 1;
        let size = |choice: &Choice| choice.dropping.encode().len();
        if self.smallest.as_ref().is_none_or(|smallest| size(&choice) < size(smallest)) {
            self.smallest = Some(choice);
        }
    }

    /// Whether `batch` reads the whole and the shorter list as the original does.
    fn agrees(&mut self, choice: &Choice) -> bool {
        let Some(lists) = &self.lists else { return true };
        let mut agrees = true;
        for _ in 0..if choice.is_own() { 2 } else { 0 } {
            self.outcomes.read += 1;
            agrees &= lists.recv_timeout(PATIENCE).is_ok_and(|(right, given)| given == Ok(right));
        }
        agrees
    }
}

/// Whether an answer is what the judge says; of a script's own, what is left has to be the reading of the shorter list, too.
fn is_right(choice: &Choice, given: Answer) -> bool {
    let dropping = &choice.dropping;
    let Some(given) = given.ok().and_then(|given| dropping.taken(&given)) else { return false };
    let is_read = choice.script().is_none_or(|script| {
        let shorter = script.shorter(&dropping.choice);
        given == dropping.left_of(|| accepted(&shorter).clone())
    });
    is_read && given == dropping.left()
}

/// What `batch` is asked about a choice, and what it must answer: the whole list, and the shorter one.
fn lists(choice: &Choice) -> Vec<(Vec<u8>, Vec<u8>)> {
    let of = |script: Script| [asked(script.whole()), asked(&script.shorter(&choice.dropping.choice))];
    choice.script().map(of).into_iter().flatten().collect()
}

/// Hands on what `batch` must answer and what it answers.
fn read(batch: Subject, choices: Receiver<Choice>) -> Receiver<(Vec<u8>, Answer)> {
    let (send, answers) = sync_channel(1_024);
    let (right, wanted) = channel();
    let frames = choices.into_iter().flat_map(move |choice| {
        lists(&choice).into_iter().map(|(frame, answer)| (frame, right.send(answer)).0).collect::<Vec<_>>()
    });
    thread::spawn(move || {
        let each = |answer| wanted.recv().is_ok_and(|right| send.send((right, answer)).is_ok());
        if let Err(failure) = batch.stream(frames, each) {
            println!("{failure}");
        }
    });
    answers
}

fn compare(count: u64, seed: u64, subject: Subject, batch: Option<Subject>) -> ExitCode {
    let (sent, choices) = sync_channel(1_024);
    let (to_batch, for_batch) = sync_channel(1_024);
    let lists = batch.map(|batch| read(batch, for_batch));
    let (has_batch, all) = (lists.is_some(), Choices::new(seed));
    let frames = (0..count).map(move |index| {
        let choice = all.get(index);
        let frame = choice.dropping.encode();
        if has_batch {
            let _ = to_batch.send(choice.clone());
        }
        let _ = sent.send(choice);
        frame
    });
    let outcomes = Outcomes::default();
    let mut tally = Tally { compared: 0, differences: 0, smallest: None, outcomes, lists };
    let answered = subject.stream(frames, |given| match choices.recv_timeout(PATIENCE) {
        Ok(choice) => {
            tally.add(choice, given);
            true
        }
        Err(_) => {
            tally.differences += 1; // an answer to no choice
            false
        }
    });
    if let Err(failure) = &answered {
        println!("{failure}");
    }
    if tally.compared < count {
        println!("the run ended after {} choices: the others count as differences", tally.compared);
        tally.differences += count - tally.compared;
        tally.smallest.get_or_insert_with(|| Choices::new(seed).get(tally.compared));
    } else if answered.is_err() {
        tally.differences += 1;
    }
    if let Some(choice) = tally.smallest.take() {
        show_smallest(choice, &subject);
    }
    let is_covered = tally.outcomes.print();
    println!("{count} choices, {} differences", tally.differences);
    ExitCode::from((tally.differences > 0 || !is_covered) as u8)
}

fn show_smallest(choice: Choice, subject: &Subject) {
    if let Some(script) = choice.script() {
        let shorter = script.shorter(&choice.dropping.choice);
        print!("the script\n{}", show::case(&asked(script.whole()).0));
        print!("its shorter list\n{}", show::case(&asked(&shorter).0));
        let (read, right) = (choice.dropping.left_of(|| accepted(&shorter).clone()), choice.dropping.left());
        if let Some(difference) = difference(&read, &right) {
            println!("the judge's rows are not those of the shorter list: {difference}");
        }
    }
    let given = |call: &Dropping| subject.one(&call.encode()).map(|answer| call.taken(&answer));
    let differs = |call: &Dropping| given(call) != Ok(Some(call.left()));
    let start = Instant::now();
    let call = if differs(&choice.dropping) {
        shrunk_dropping(choice.dropping, |call| start.elapsed() < PATIENCE && differs(call))
    } else {
        println!("the program's answer is the judge's when the call is made alone");
        choice.dropping
    };
    print!("the smallest call that differs:\n{}", show::dropping(&call));
    print!("oracle\n{}program\n", show::kept(&call.left()));
    match given(&call) {
        Ok(Some(given)) => {
            print!("{}", show::kept(&given));
            if let Some(difference) = difference(&call.left(), &given) {
                println!("differs  {difference}");
            }
        }
        Ok(None) => println!("         an answer of another length"),
        Err(failure) => println!("         {failure}"),
    }
}

fn fix(read: &str, answers_to: &str) -> ExitCode {
    let (mut frames, mut answers) = (Vec::new(), Vec::new());
    let (choices, mut outcomes) = (written(), Outcomes::default());
    for choice in &choices {
        outcomes.add(choice);
        let right = choice.dropping.left().encode();
        assert!(is_right(choice, Ok(right.clone())), "the reading of the shorter list");
        frame::write(&mut frames, &choice.dropping.encode()).expect("memory");
        frame::write(&mut answers, &right).expect("memory");
    }
    let is_covered = outcomes.print();
    println!("{} choices, {} and {} bytes", choices.len(), frames.len(), answers.len());
    fs::write(read, frames).expect("the list can be written");
    fs::write(answers_to, answers).expect("the answers can be written");
    ExitCode::from(!is_covered as u8)
}
