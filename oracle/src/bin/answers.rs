//! answers make | check | show CRATES: the fixed lists of cases with the original's answers, in the folder of the crates.
use std::{
    env, fs,
    io::{self, Write},
    path::Path,
    process::ExitCode,
};

use oracle::{coverage::Coverage, fixed, show};

const REPLAY: &str = "replay/stdin";
const BATCH: [&str; 2] = ["batch/stdin", "batch/stdout"];

fn main() -> ExitCode {
    let words: Vec<_> = env::args().skip(1).collect();
    let [command, crates] = words.as_slice() else {
        eprintln!("usage: answers make|check|show");
        return ExitCode::from(2);
    };
    let (command, crates) = (command.clone(), crates.clone());
    oracle::with_large_stack(move || run(&command, Path::new(&crates)))
}

fn run(command: &str, crates: &Path) -> ExitCode {
    match command {
        "make" => {
            let covered = Coverage::of(fixed::cases().into_iter()).print();
            for (name, file) in files() {
                println!("{name}: {} bytes", file.len());
                fs::write(crates.join(name), file).expect("the list can be written");
            }
            ExitCode::from(!covered as u8)
        }
        "check" => {
            let covered = Coverage::of(fixed::cases().into_iter()).print();
            let mut unchanged = true;
            for (name, file) in files() {
                let is_same = fs::read(crates.join(name)).is_ok_and(|old| old == file);
                println!("{name}: {}", if is_same { "unchanged" } else { "changed" });
                unchanged &= is_same;
            }
            ExitCode::from(!(covered && unchanged) as u8)
        }
        "show" => {
            let frames = |name| fixed::frames(&fs::read(crates.join(name)).expect("the list can be read"));
            let replay = frames(REPLAY);
            let [cases, answers] = BATCH.map(frames);
            let replayed = replay.as_chunks().0.iter().map(|[case, answer]| (case, answer));
            let shown =
                replayed.chain(cases.iter().zip(&answers)).enumerate().map(|(number, (case, answer))| {
                    format!("case     {number}\n{}{}", show::case(case), show::answer(answer))
                });
            let _ = io::stdout().write_all(shown.collect::<String>().as_bytes()); // perhaps not read to its end
            ExitCode::SUCCESS
        }
        _ => ExitCode::from(2),
    }
}

fn files() -> [(&'static str, Vec<u8>); 3] {
    let (read, written) = fixed::batch_files();
    [(REPLAY, fixed::file()), (BATCH[0], read), (BATCH[1], written)]
}
