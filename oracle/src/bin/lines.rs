//! lines COMMAND..: what `COMMAND check` says of scripts with all sorts of line ends, against `lines.rs`. The scripts are the
//! texts of up to seven bytes out of a letter, a newline and a return, each with a byte that starts no token at every offset.
use std::{
    fs,
    io::Result,
    path::Path,
    process::{Command, ExitCode},
};

use oracle::lines::{place, texts, written};

/// So many files are named in one run.
const FILES: usize = 2_000;

fn main() -> ExitCode {
    let words: Vec<String> = std::env::args().skip(1).collect();
    if words.is_empty() {
        eprintln!("usage: lines COMMAND..");
        return ExitCode::from(2);
    }
    let folder = std::env::temp_dir().join(format!("kaori-lines-{}", std::process::id()));
    match within(&folder, || run(&words, &folder)) {
        Ok(code) => code,
        Err(error) => {
            eprintln!("{error}");
            ExitCode::from(2)
        }
    }
}

/// Does the work with a new folder, which is gone after it.
fn within<T>(folder: &Path, work: impl FnOnce() -> Result<T>) -> Result<T> {
    fs::create_dir(folder)?;
    let done = work();
    fs::remove_dir_all(folder)?;
    done
}

/// The scripts, each with the offset where it is refused.
fn scripts() -> Vec<(String, usize)> {
    let probed = |text: String| {
        (0..=text.len()).map(move |at| (format!("{}@{}", &text[..at], &text[at..]), at)).collect::<Vec<_>>()
    };
    texts("a\n\r", 7).into_iter().flat_map(probed).collect()
}

/// What is said of a script in this file: the place and the message, what is written on the line, and a caret.
fn report(file: &str, script: &str, at: usize) -> String {
    let (line, column) = place(script, at);
    let blanks = " ".repeat(column - 1);
    format!("{file}:{line}:{column}: no token starts here\n{}\n{blanks}^\n", written(script, at))
}

fn run(words: &[String], folder: &Path) -> Result<ExitCode> {
    let scripts = scripts();
    let mut differences = 0;
    for part in scripts.chunks(FILES) {
        let name = |i: usize| folder.join(i.to_string()).display().to_string();
        let files: Vec<_> = (0..part.len()).map(name).collect();
        for (file, (script, _)) in files.iter().zip(part) {
            fs::write(file, script)?;
        }
        let said = Command::new(&words[0]).args(&words[1..]).arg("check").args(&files).output()?.stdout;
        let said = String::from_utf8_lossy(&said);
        let lines: Vec<_> = said.split_inclusive('\n').filter(|line| !line.starts_with("  hint: ")).collect();
        let mut reports = lines.chunks(3).map(|three| three.concat());
        for (file, (script, at)) in files.iter().zip(part) {
            let expected = report(file, script, *at);
            let told = reports.next().unwrap_or_default();
            if told != expected {
                if differences == 0 {
                    println!("the first script that differs: \"{}\"", script.escape_default());
                    println!("lines.rs \"{}\"", expected.escape_default());
                    println!("program  \"{}\"", told.escape_default());
                }
                differences += 1;
            }
        }
        differences += reports.count(); // what is said of no script
    }
    println!("{} scripts, {differences} differences", scripts.len());
    Ok(ExitCode::from((differences > 0) as u8))
}
