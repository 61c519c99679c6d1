//! loads N [--seed S] COMMAND.. [--batch BATCH..]: runs N station's calls through the judge of `loads.rs` and through COMMAND; and each script of
//! those whose lists are given by itself through BATCH, the program `batch`.
//! loads --fixed IN OUT: writes the fixed list of calls, and the answers to them.
use std::{
    collections::BTreeMap,
    fs,
    process::ExitCode,
    sync::mpsc::{Receiver, channel, sync_channel},
    thread,
    time::Instant,
};

use oracle::{
    frame,
    joined::small,
    lexer::Lexer,
    loads::{Came, FAULTS, Fault, Left, Load, Source, difference},
    show,
    shrink::shrunk_load,
    stations::Calls,
    subject::{Answer, PATIENCE, Subject},
};

const USAGE: &str = "loads N [--seed S] COMMAND.. [--batch BATCH..] | loads --fixed IN OUT";

enum Task {
    Compare { count: u64, seed: u64, subject: Subject, batch: Option<Subject> },
    Fix { read: String, written: String },
}

fn main() -> ExitCode {
    let Some(task) = task(std::env::args().skip(1).collect()) else {
        eprintln!("usage: {USAGE}");
        return ExitCode::from(2);
    };
    oracle::with_large_stack(move || match task {
        Task::Compare { count, seed, subject, batch } => compare(count, seed, subject, batch),
        Task::Fix { read, written } => fix(&read, &written),
    })
}

fn task(mut words: Vec<String>) -> Option<Task> {
    if let [option, read, written] = &words[..]
        && option == "--fixed"
    {
        return Some(Task::Fix { read: read.clone(), written: written.clone() });
    }
    let subject = |words: Vec<String>| (!words.is_empty()).then_some(Subject { words, batch: true });
    let mut batch = None;
    if let Some(place) = words.iter().position(|word| word == "--batch") {
        batch = Some(subject(words.split_off(place).split_off(1))?);
    }
    let mut words = words.into_iter().peekable();
    let count = words.next()?.parse().ok()?;
    let mut seed = 1;
    if words.peek()? == "--seed" {
        seed = words.nth(1)?.parse().ok()?;
    }
    Some(Task::Compare { count, seed, subject: subject(words.collect())?, batch })
}

/// The sources of lists, and what may come of a script by each.
const SOURCES: [(Source, &str); 2] = [(Source::Given, "given"), (Source::Made, "made")];
const BOTH: [Came; 12] = [
    Came::Accepted,
    Came::Read(4),
    Came::Read(8),
    Came::Read(9),
    Came::Read(10),
    Came::Read(11),
    Came::Door(1),
    Came::Door(3),
    Came::Door(4),
    Came::Door(18),
    Came::Door(21),
    Came::Door(2),
];
const GIVEN: [Came; 3] = [Came::Door(5), Came::Door(6), Came::Door(7)];
const MADE: [Came; 4] = [Came::Unmade(1), Came::Unmade(2), Came::Unmade(5), Came::Unmade(16)];

/// Whether a script whose list is made, or given, may come to this.
fn may_come(source: Source, came: Came) -> bool {
    match came {
        Came::Door(1 | 2) => source == Source::Given,
        _ if GIVEN.contains(&came) => source == Source::Given,
        _ if MADE.contains(&came) => source == Source::Made,
        _ => true,
    }
}

fn told(came: Came) -> String {
    match came {
        Came::Accepted => "accepted".into(),
        Came::Read(code) => format!("{code} in reading"),
        Came::Door(code) => format!("{code} at the door"),
        Came::Unmade(code) => format!("{code} by the token maker"),
    }
}

/// How many calls and scripts there were, and what came of them.
#[derive(Default)]
struct Outcomes {
    calls: [u64; 2],
    scripts: [BTreeMap<Came, u64>; 2],
    /// Calls that are turned away for one thing alone, and for several.
    alone: [u64; FAULTS.len()],
    several: u64,
    /// Scripts that `batch` was asked about.
    asked: u64,
}

impl Outcomes {
    fn add(&mut self, load: &Load, came: &[Came]) {
        let source = load.source as usize;
        self.calls[source] += 1;
        came.iter().for_each(|came| *self.scripts[source].entry(*came).or_default() += 1);
        match load.faults()[..] {
            [] => {}
            [fault] => self.alone[fault as usize] += 1,
            _ => self.several += 1,
        }
    }

    /// Prints the counts, and says whether everything came that can.
    fn print(&self) -> bool {
        let mut missing = Vec::new();
        for ((source, name), scripts) in SOURCES.into_iter().zip(&self.scripts) {
            let all: u64 = scripts.values().sum();
            println!("{name:<6}   {} calls, {all} scripts", self.calls[source as usize]);
            for came in BOTH.into_iter().chain(GIVEN).chain(MADE) {
                let count = scripts.get(&came).copied().unwrap_or(0);
                if count > 0 {
                    println!("{count:>9} {}", told(came));
                } else if may_come(source, came) {
                    missing.push(format!("{} ({name})", told(came)));
                }
            }
        }
        let away: u64 = self.alone.iter().sum::<u64>() + self.several;
        println!("19       {away} calls");
        for (fault, count) in FAULTS.into_iter().zip(self.alone) {
            println!("{count:>9} {}", cause(fault));
            if count == 0 {
                missing.push(cause(fault).into());
            }
        }
        println!("{:>9} several of these", self.several);
        println!("batch    {} scripts", self.asked);
        if !missing.is_empty() {
            println!("there is no {}", missing.join(", no "));
        }
        missing.is_empty()
    }
}

fn cause(fault: Fault) -> &'static str {
    match fault {
        Fault::None => "no script",
        Fault::Many => "over 32 scripts",
        Fault::Odd => "odd list of cuts",
        Fault::Back => "cut that goes back",
        Fault::Past => "cut past an end",
        Fault::Small => "room smaller than the parts need",
        Fault::Answers => "room smaller than the answers need",
    }
}

/// The differences met so far.
struct Tally {
    compared: u64,
    differences: u64,
    smallest: Option<Load>,
    outcomes: Outcomes,
    lexer: Lexer,
    /// What `batch` answers of the scripts, in order.
    alone: Option<Receiver<Answer>>,
}

impl Tally {
    fn add(&mut self, load: Load, given: Answer) {
        self.compared += 1;
        let (right, came) = load.left(&self.lexer);
        self.outcomes.add(&load, &came);
        let given = given.ok().and_then(|given| load.taken(&given));
        let is_same = given.as_ref() == Some(&right);
        if self.agrees(&load, given.as_ref()) && is_same {
            return;
        }
        self.differences += 1;
        let size = |load: &Load| load.encode().len();
        if self.smallest.as_ref().is_none_or(|smallest| size(&load) < size(smallest)) {
            self.smallest = Some(load);
        }
    }

    /// Whether `batch` says the same of each script that it was asked about. It is asked what it is asked whatever the program says.
    fn agrees(&mut self, load: &Load, given: Option<&Left>) -> bool {
        let Some(alone) = &self.alone else { return true };
        let mut agrees = true;
        for (script, frame) in asked(load).into_iter().enumerate() {
            if frame.is_none() {
                continue;
            }
            self.outcomes.asked += 1;
            let batch = alone.recv().unwrap_or(Err("no more answers".into()));
            agrees &= match (given, batch) {
                (Some(given), Ok(batch)) => load.agrees(script, given, &batch),
                _ => false,
            };
        }
        agrees
    }
}

/// What `batch` is asked about a call's scripts.
fn asked(load: &Load) -> Vec<Option<Vec<u8>>> {
    if load.faults().is_empty() { load.alone() } else { Vec::new() }
}

fn compare(count: u64, seed: u64, subject: Subject, batch: Option<Subject>) -> ExitCode {
    let (sent, loads) = channel();
    let (to_batch, for_batch) = channel::<Load>();
    let alone = batch.map(|batch| {
        let (send, answers) = sync_channel(1_024);
        thread::spawn(move || {
            let frames = for_batch.into_iter().flat_map(|load| asked(&load).into_iter().flatten());
            let failed = batch.stream(frames, |answer| send.send(answer).is_ok());
            failed.err().map(|failure| send.send(Err(failure)))
        });
        answers
    });
    let calls = Calls::new(seed);
    let has_batch = alone.is_some();
    let frames = (0..count).map(move |index| {
        let load = calls.get(index);
        let frame = load.encode();
        if has_batch {
            let _ = to_batch.send(load.clone());
        }
        let _ = sent.send(load);
        frame
    });
    let mut tally = Tally {
        compared: 0,
        differences: 0,
        smallest: None,
        outcomes: Outcomes::default(),
        lexer: Lexer::new(),
        alone,
    };
    let answered = subject.stream(frames, |given| match loads.recv_timeout(PATIENCE) {
        Ok(load) => {
            tally.add(load, given);
            true
        }
        Err(_) => {
            tally.differences += 1; // an answer to no call
            false
        }
    });
    if let Err(failure) = &answered {
        println!("{failure}");
    }
    if tally.compared < count {
        println!("the run ended after {} calls: the others count as differences", tally.compared);
        tally.differences += count - tally.compared;
        tally.smallest.get_or_insert_with(|| Calls::new(seed).get(tally.compared));
    } else if answered.is_err() {
        tally.differences += 1;
    }
    if let Some(load) = tally.smallest.take() {
        show_smallest(load, &subject, &tally.lexer);
    }
    let is_covered = tally.outcomes.print();
    println!("{count} calls, {} differences", tally.differences);
    ExitCode::from((tally.differences > 0 || !is_covered) as u8)
}

fn show_smallest(load: Load, subject: &Subject, lexer: &Lexer) {
    let given = |load: &Load| subject.one(&load.encode()).map(|answer| load.taken(&answer));
    let differs = |load: &Load| given(load) != Ok(Some(load.left(lexer).0));
    let start = Instant::now();
    let load = if differs(&load) {
        shrunk_load(load, |load| start.elapsed() < PATIENCE && differs(load))
    } else {
        println!("the program's answer is right when the call is made alone");
        load
    };
    let (right, _) = load.left(lexer);
    print!("the smallest call that differs:\n{}oracle\n{}program\n", show::load(&load), show::left(&right));
    match given(&load) {
        Ok(Some(given)) => {
            print!("{}", show::left(&given));
            if let Some(difference) = difference(&right, &given) {
                println!("differs  {difference}");
            }
        }
        Ok(None) => println!("         an answer of another length"),
        Err(failure) => println!("         {failure}"),
    }
}

fn fix(read: &str, written: &str) -> ExitCode {
    let (mut frames, mut answers) = (Vec::new(), Vec::new());
    let (lexer, loads) = (Lexer::new(), small());
    let mut outcomes = Outcomes::default();
    for load in &loads {
        let (left, came) = load.left(&lexer);
        outcomes.add(load, &came);
        frame::write(&mut frames, &load.encode()).expect("memory");
        frame::write(&mut answers, &left.encode()).expect("memory");
    }
    outcomes.print();
    println!("{} calls, {} and {} bytes", loads.len(), frames.len(), answers.len());
    fs::write(read, frames).expect("the list can be written");
    fs::write(written, answers).expect("the answers can be written");
    ExitCode::SUCCESS
}
