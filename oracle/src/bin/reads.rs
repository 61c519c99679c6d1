//! reads N [--seed S] COMMAND..: N generated scripts of each edition through `COMMAND tree`: what stands under *reads as* is read
//! again, and has to make the same rows as the script itself. What edition 1 shows is read again in both editions. Before them come
//! the scripts that are written down here. COMMAND is the program `kaori`.
use std::{
    collections::HashMap,
    fs,
    io::Result,
    path::Path,
    process::{Command, ExitCode},
};

use oracle::{
    random::Random,
    scripts::script,
    texts::{Gaps, printed},
};

/// So many files are named in one run.
const FILES: usize = 500;

/// What a script may be too large for once it has its parentheses.
const LIMITS: &[&str] = &["nested too deep", "too many tokens", "file too large"];

/// Operators of one level, of two and in chains; strings with any byte, and a backslash before a return.
fn written() -> Vec<Vec<u8>> {
    let signs = ["+", "-", "*", "/", "%", "==", "!=", ">", ">=", "<", "<=", "and", "or"];
    let mut all = Vec::new();
    for a in signs {
        for b in signs {
            for text in [format!("a {a} b {b} c;"), format!("a {a} (b {b} c);"), format!("(a {a} b) {b} c;")]
            {
                all.push(
                    format!("{text} x = {text} not {text} -{text} f({text}").replace(";)", ");").into_bytes(),
                );
                all.push(text.into_bytes());
            }
        }
    }
    for sign in signs {
        all.push(format!("let sum = {};", vec!["a"; 500].join(&format!(" {sign} "))).into_bytes());
    }
    for byte in 0..128u8 {
        all.push([b"let a = \"x", &[byte][..], b"\\", &[byte], b"y\\\\", &[byte], b"z\";"].concat());
    }
    for text in [
        "\"a\\\r\nb\";",
        "\"a\r\nb\rc\nd\";",
        "\"a\\\rb\";",
        "\"\\\\\r\";",
        "(if a { b } else { c }) + 1 + 2;",
        "(|a| a) + b + c;",
    ] {
        all.push(text.into());
    }
    all
}

/// What `COMMAND --edition E WORDS FILES` prints.
fn said(words: &[String], edition: u32, of: &[&str], files: &[String]) -> Result<String> {
    let edition = edition.to_string();
    let output = Command::new(&words[0])
        .args(&words[1..])
        .args(["--edition", &edition])
        .args(of)
        .args(files)
        .output()?;
    Ok(String::from_utf8_lossy(&output.stdout).into_owned())
}

/// The value of a string field of an object.
fn field<'a>(object: &'a str, key: &str) -> &'a str {
    let lead = format!("\"{key}\":\"");
    let Some(from) = object.find(&lead) else { return "" };
    let rest = &object[from + lead.len()..];
    let mut end = 0;
    while !rest[end..].starts_with('"') {
        end += if rest[end..].starts_with('\\') { 2 } else { 1 };
    }
    &rest[..end]
}

/// What a row has apart from its warning and its place: its number, its parent, its kind and so on; and the text of a word or a number.
fn shape(object: &str) -> String {
    let Some(from) = object.find(",\"row\":") else { return field(object, "message").to_string() };
    let upto = object.find(",\"warning\":").unwrap_or(object.len());
    let leaf = matches!(field(object, "kind"), "Identifier" | "Number" | "Boolean" | "Nil");
    format!("{} {}", &object[from..upto], if leaf { field(object, "text") } else { "" })
}

/// The shapes of the rows of each file.
fn shapes(words: &[String], edition: u32, files: &[String]) -> Result<HashMap<String, Vec<String>>> {
    let mut all: HashMap<String, Vec<String>> = HashMap::new();
    for object in said(words, edition, &["tree", "--json"], files)?.lines() {
        all.entry(field(object, "file").to_string()).or_default().push(shape(object));
    }
    Ok(all)
}

/// What stands under *reads as*, of each file.
fn readings(words: &[String], edition: u32, files: &[String]) -> Result<HashMap<String, String>> {
    let mut all = HashMap::new();
    for part in format!("\n{}", said(words, edition, &["tree"], files)?).split("\n== ").skip(1) {
        let (name, shown) = part.split_once('\n').unwrap_or((part, ""));
        let statements =
            shown.split("\n  reads as\n").skip(1).map(|rest| rest.split("\n  tree\n").next().unwrap_or(""));
        all.insert(name.to_string(), statements.collect::<Vec<_>>().join("\n"));
    }
    Ok(all)
}

/// How many scripts were read again, how many grew too large for that, and how many differ.
#[derive(Default)]
struct Count {
    again: usize,
    large: usize,
    differ: usize,
}

fn batch(
    words: &[String],
    folder: &Path,
    edition: u32,
    scripts: &[Vec<u8>],
    count: &mut Count,
) -> Result<()> {
    let name = |i: usize, sort: &str| folder.join(format!("{i}{sort}")).display().to_string();
    let files: Vec<_> = (0..scripts.len().max(2)).map(|i| name(i, "")).collect();
    for (i, file) in files.iter().enumerate() {
        fs::write(file, scripts.get(i).map_or(&b"a;"[..], |script| script))?;
    }
    let first = shapes(words, edition, &files)?;
    let readings = readings(words, edition, &files)?;
    let again: Vec<_> = (0..files.len()).map(|i| name(i, "again")).collect();
    for (file, to) in files.iter().zip(&again) {
        fs::write(to, readings.get(file).map_or("", |text| text))?;
    }
    for other in edition..=2 {
        let second = shapes(words, other, &again)?;
        for (i, script) in scripts.iter().enumerate() {
            let (a, b) = (first.get(&files[i]), second.get(&again[i]));
            let refused =
                |rows: Option<&Vec<String>>| rows.is_some_and(|rows| !rows[0].starts_with(",\"row\""));
            if refused(a) {
                continue;
            }
            if refused(b) && b.is_some_and(|rows| LIMITS.iter().any(|limit| rows[0].starts_with(limit))) {
                count.large += 1;
            } else if a != b {
                if count.differ == 0 {
                    println!("the first script that differs, in edition {edition} and then {other}:");
                    println!("{}", String::from_utf8_lossy(script));
                    println!("reads as\n{}", fs::read_to_string(&again[i])?);
                }
                count.differ += 1;
            } else {
                count.again += 1;
            }
        }
    }
    Ok(())
}

fn run(words: &[String], folder: &Path, n: usize, seed: u64) -> Result<ExitCode> {
    let mut count = Count::default();
    for edition in [1, 2] {
        let mut scripts = written();
        for index in 0..n {
            let mut random = Random::of(seed, index as u64 * 2 + edition as u64);
            let size = random.pick(&[5, 20, 60, 200, 700]);
            let list = script(edition, &mut random, size);
            let gaps = random.pick(&[Gaps::Needed, Gaps::Blanks]);
            scripts.push(printed(&list, gaps, &mut random));
        }
        for part in scripts.chunks(FILES) {
            batch(words, folder, edition, part, &mut count)?;
        }
    }
    println!("{} read again, {} too large for it, {} differences", count.again, count.large, count.differ);
    Ok(ExitCode::from((count.differ > 0) as u8))
}

fn main() -> ExitCode {
    let mut words: Vec<String> = std::env::args().skip(1).collect();
    let n = if words.is_empty() { None } else { words.remove(0).parse().ok() };
    let mut seed = 1;
    if words.first().is_some_and(|word| word == "--seed") && words.len() > 1 {
        seed = words[1].parse().unwrap_or(1);
        words.drain(..2);
    }
    let (Some(n), false) = (n, words.is_empty()) else {
        eprintln!("usage: reads N [--seed S] COMMAND..");
        return ExitCode::from(2);
    };
    let folder = std::env::temp_dir().join(format!("kaori-reads-{}", std::process::id()));
    let done = fs::create_dir(&folder).and_then(|()| run(&words, &folder, n, seed));
    let gone = fs::remove_dir_all(&folder);
    match done.and_then(|code| gone.map(|()| code)) {
        Ok(code) => code,
        Err(error) => {
            eprintln!("{error}");
            ExitCode::from(2)
        }
    }
}
