//! definitions N [--numbers | --guard] [--edition E] [--seed S] [--damage]: N of the original's answers, computed anew by antt from the
//! definitions of crate `grammar`, in a copy of that crate outside the repository.
use std::{
    collections::BTreeMap,
    env, fs, io,
    path::{Path, PathBuf},
    process::{self, Command, ExitCode},
};

use oracle::{
    beside::for_case,
    builtins::Builtins,
    door,
    drawn::small,
    judge,
    numbers::number,
    rooms::Known,
    rows::Outcome,
    table::{Entry, Row},
    terms::{Call, FIRST, SECOND, Terms},
    tight::settings,
};

/// Cases in one table.
const CHUNK: usize = 1_000;

/// The most built-in names of a case.
const MOST_NAMES: usize = 5;

fn main() -> ExitCode {
    let mut words = env::args().skip(1);
    let (mut count, mut edition, mut seed) = (None, FIRST, 1);
    let (mut damage, mut numbers, mut is_guard) = (false, false, false);
    while let Some(word) = words.next() {
        match word.as_str() {
            "--seed" => seed = words.next().and_then(|seed| seed.parse().ok()).unwrap_or(seed),
            "--edition" => edition = words.next().and_then(|edition| edition.parse().ok()).unwrap_or(edition),
            "--damage" => damage = true,
            "--numbers" => numbers = true,
            "--guard" => is_guard = true,
            number => count = number.parse().ok(),
        }
    }
    let (Some(count), Some(grammar)) = (count, env::var_os("ORACLE_GRAMMAR")) else {
        eprintln!("usage: oracle/definitions N [--numbers | --guard] [--edition E] [--seed S] [--damage]");
        return ExitCode::from(2);
    };
    oracle::with_large_stack(move || match numbers {
        false => lists(count, is_guard, edition, seed, damage, Path::new(&grammar)),
        true => texts(count, seed, damage, Path::new(&grammar)),
    })
}

/// Scripts or guards that pass the door, and what the original makes of them.
fn lists(count: usize, is_guard: bool, edition: u32, seed: u64, damage: bool, grammar: &Path) -> ExitCode {
    let mut entries: Vec<_> =
        (0..).filter_map(|index| entry(is_guard, edition, seed, index)).take(count).collect();
    if damage && let Some(entry) = entries.get_mut(count / 2) {
        falsify(&mut entry.outcome);
    }
    run(&entries, codes(&entries), grammar)
}

/// Texts of the bytes that numbers are made of: which are NumberLiterals, and which the library's f64 reading takes.
fn texts(count: usize, seed: u64, damage: bool, grammar: &Path) -> ExitCode {
    let mut numbers: Vec<_> = (0..count as u64).map(|index| number(seed, index)).collect();
    if damage && let Some(number) = numbers.get_mut(count / 2) {
        number.is_float ^= true;
    }
    let taken = numbers.iter().filter(|number| number.is_float).count();
    let fitting = numbers.iter().filter(|number| number.fits).count();
    run(&numbers, format!("{taken} that f64's reading takes, {fitting} that are NumberLiterals"), grammar)
}

fn run<R: Row>(rows: &[R], summary: String, grammar: &Path) -> ExitCode {
    let copy = GrammarCopy::new::<R>(grammar).expect("a copy of the crate can be made");
    if let Err(report) = copy.computes::<R>(&[]) {
        println!("the definitions do not check even with no cases:\n{report}");
        return ExitCode::from(2);
    }
    let mut different = Vec::new();
    for (number, chunk) in rows.chunks(CHUNK).enumerate() {
        copy.collect(chunk, &mut different);
        println!("{} cases computed", (number * CHUNK + chunk.len()));
    }
    if let Some((row, report)) = different.iter().min_by_key(|(row, _)| row.size()) {
        print!("the smallest case that differs:\n{}antt\n{report}", row.shown());
    }
    println!("{summary}");
    println!("{} cases, {} differences", rows.len(), different.len());
    ExitCode::from(!different.is_empty() as u8)
}

/// A case that passes the door, every other time beside built-in names, with a limit near its own depth or the usual one, and
/// rooms that tell, every other time with a row for each token and each name.
fn entry(is_guard: bool, edition: u32, seed: u64, index: u64) -> Option<Entry> {
    let (case, mut random) = small(is_guard, edition, seed, index);
    let call = |edition, limit| Call { is_guard, terms: Terms { edition, limit } };
    if door::refusal(&case, call(FIRST, 64)).is_some() {
        return None;
    }
    let names =
        if random.once_in(2) { for_case(&case, MOST_NAMES, &mut random) } else { Builtins::default() };
    // scripts of edition 2 are read in edition 1, too
    let edition = if edition == SECOND && random.once_in(5) { FIRST } else { edition };
    let depth = judge::read(&names, &case, call(edition, 64)).deepest as usize;
    let near = [64, 64, depth.saturating_sub(1), depth, depth + 1, random.between(1, depth.max(1))];
    let limit = random.pick(&near).clamp(1, 64) as u32;
    let known = Known::beside(names.clone(), case.clone(), call(edition, limit));
    let mut rooms = vec![known.ample()];
    if random.once_in(2) {
        rooms = settings(&known, &mut random);
        rooms.retain(|rooms| known.turned_away(*rooms).is_none());
    }
    let rooms = random.pick(&rooms);
    Some(Entry { outcome: known.comes(rooms), is_guard, edition, names, case, limit, rooms })
}

fn codes(entries: &[Entry]) -> String {
    let mut counts = BTreeMap::new();
    for entry in entries {
        let code = match &entry.outcome {
            Outcome::Accepted(_) => 0,
            Outcome::Refused(refusal) => refusal.code,
        };
        *counts.entry(code).or_insert(0) += 1;
    }
    let mut counts: Vec<_> = counts.iter().map(|(code, count)| format!("{count} of code {code}")).collect();
    let named = entries.iter().filter(|entry| !entry.names.places().is_empty()).count();
    counts.push(format!("{named} beside built-in names"));
    let second = entries.iter().filter(|entry| entry.edition == SECOND).count();
    counts.push(format!("{second} of edition 2"));
    counts.join(", ")
}

/// Makes an answer wrong by one.
fn falsify(outcome: &mut Outcome) {
    match outcome {
        Outcome::Accepted(rows) => rows.nodes.last_mut().expect("a root")[4] += 1,
        Outcome::Refused(refusal) => refusal.at += 1,
    }
}

/// The crate with a table of cases, below the temporary folder; removed when dropped.
struct GrammarCopy {
    root: PathBuf,
}

impl GrammarCopy {
    fn new<R: Row>(grammar: &Path) -> io::Result<GrammarCopy> {
        let copy =
            GrammarCopy { root: env::temp_dir().join(format!("oracle-definitions-{}", process::id())) };
        let to = copy.folder();
        copy_folder(grammar, &to)?;
        fs::write(copy.root.join("crates.txt"), "grammar:\n")?;
        for part in ["specs", "proofs"] {
            let path = to.join(part).join("Lib.antt");
            fs::write(&path, fs::read_to_string(&path)? + "pub mod Cases\n")?;
        }
        let model = fs::read_to_string(to.join("proofs").join(R::MODEL))?;
        fs::write(to.join("proofs/Cases.antt"), R::proofs(&model))?;
        Ok(copy)
    }

    fn folder(&self) -> PathBuf {
        self.root.join("crates/grammar")
    }

    /// Lets antt compute a table; an error holds what `rt` said.
    fn computes<R: Row>(&self, rows: &[R]) -> Result<(), String> {
        fs::write(self.folder().join("specs/Cases.antt"), R::specs(rows)).expect("the table can be written");
        let output = Command::new("rt").arg("check").current_dir(&self.root).output().expect("rt runs");
        if output.status.success() {
            return Ok(());
        }
        let said = String::from_utf8_lossy(&output.stdout) + String::from_utf8_lossy(&output.stderr);
        let lines = said.lines().skip_while(|line| !line.contains("error")).take(5);
        Err(lines
            .map(|line| format!("         {}\n", line.chars().take(1_000).collect::<String>()))
            .collect())
    }

    /// Finds the cases that differ, by halves.
    fn collect<R: Row>(&self, rows: &[R], different: &mut Vec<(R, String)>) {
        match (self.computes(rows), rows) {
            (Ok(()), _) => {}
            (Err(report), [row]) => different.push((row.clone(), report)),
            (Err(_), _) => {
                let (first, second) = rows.split_at(rows.len() / 2);
                self.collect(first, different);
                self.collect(second, different);
            }
        }
    }
}

impl Drop for GrammarCopy {
    fn drop(&mut self) {
        let _ = fs::remove_dir_all(&self.root);
    }
}

fn copy_folder(from: &Path, to: &Path) -> io::Result<()> {
    fs::create_dir_all(to)?;
    for item in fs::read_dir(from)? {
        let item = item?;
        let target = to.join(item.file_name());
        if item.file_type()?.is_dir() {
            copy_folder(&item.path(), &target)?;
        } else {
            fs::write(target, fs::read(item.path())?)?; // not its mode: the copy can be written to
        }
    }
    Ok(())
}
