//! warnings N [--seed S] [--edition E] [--short L] [--forms] PROGRAM..: what `PROGRAM check --json` warns of in accepted scripts, all of up to L
//! tokens and then N generated ones of each edition, against `warned.rs`. With `--forms` the two forms that a warning of a `not` has
//! are put in the script, which is read again.
use std::{
    collections::HashMap,
    fs,
    io::Result,
    path::Path,
    process::{Command, ExitCode},
};

use oracle::{
    builtins::Builtins,
    case::{Case, Token},
    door,
    grouping::Grouping,
    judge,
    lexer::Lexer,
    lines::place,
    random::Random,
    rows::{NODE_WIDTH, Outcome, PARENT, Rows},
    terms::Terms,
    warnable,
    warned::{REACHING_NOT, RULES, Warning, reached, warnings},
};

/// So many files are named in one run.
const FILES: usize = 500;

/// The kinds of parentheses, as numbers.
const LEFT_PAREN: u8 = 17;
const RIGHT_PAREN: u8 = 18;

/// The deepest that the program reads.
const LIMIT: u32 = 64;

/// An accepted script.
struct Script {
    case: Case,
    rows: Rows,
    grouping: Grouping,
    warnings: Vec<Warning>,
}

/// The script of a text, if the original accepts it.
fn script(lexer: &Lexer, edition: u32, text: &[u8]) -> Option<Script> {
    let token = |made: &[u32; 3]| Token { kind: made[0] as u8, start: made[1], end: made[2] };
    let tokens = lexer.tokens(text).ok()?.iter().map(token).collect();
    let case = Case { text: text.to_vec(), tokens };
    let terms = Terms { edition, limit: LIMIT };
    if door::refusal(&case, terms).is_some() {
        return None;
    }
    let Outcome::Accepted(rows) = judge::read(&Builtins::default(), &case, terms).outcome else {
        return None;
    };
    let grouping = Grouping::of(edition, &case);
    assert!(grouping.has(&rows), "the reader's rows differ from the original's: {}", shown(text));
    let warnings = warnings(&case, &grouping);
    Some(Script { case, rows, grouping, warnings })
}

fn shown(text: &[u8]) -> String {
    text.escape_ascii().to_string().replace("\\\"", "\"")
}

/// A warning that the program gives.
struct Told {
    warning: Warning,
    start: usize,
    end: usize,
    hints: Vec<String>,
}

/// What stands after a key of an object.
fn after<'a>(object: &'a str, key: &str) -> &'a str {
    let lead = format!("\"{key}\":");
    object.find(&lead).map_or("", |from| &object[from + lead.len()..])
}

fn number(object: &str, key: &str) -> usize {
    let rest = after(object, key);
    rest[..rest.find([',', '}']).unwrap_or(0)].parse().unwrap_or(usize::MAX)
}

/// The string of JSON that a text starts with, and what stands after it.
fn string(rest: &str) -> Option<(String, &str)> {
    let mut signs = rest.strip_prefix('"')?.char_indices();
    let mut value = String::new();
    while let Some((at, sign)) = signs.next() {
        match sign {
            '"' => return Some((value, &rest[at + 2..])),
            '\\' => match signs.next()?.1 {
                'u' => {
                    let code: String = (0..4).filter_map(|_| signs.next()).map(|digit| digit.1).collect();
                    value.push(char::from_u32(u32::from_str_radix(&code, 16).ok()?)?);
                }
                'n' => value.push('\n'),
                'r' => value.push('\r'),
                't' => value.push('\t'),
                same => value.push(same),
            },
            sign => value.push(sign),
        }
    }
    None
}

fn text_of(object: &str, key: &str) -> String {
    string(after(object, key)).map_or(String::new(), |(value, _)| value)
}

fn told(object: &str) -> Told {
    let rule = text_of(object, "code");
    let warning = Warning { rule, line: number(object, "line"), column: number(object, "column") };
    let mut hints = Vec::new();
    let mut rest = after(object, "hints").strip_prefix('[').unwrap_or("");
    while let Some((hint, more)) = string(rest) {
        hints.push(hint);
        rest = more.strip_prefix(',').unwrap_or("");
    }
    Told { warning, start: number(object, "start"), end: number(object, "end"), hints }
}

/// Whether a line can be an object: between braces, and outside of its strings nothing but signs, numbers and the words of JSON.
fn is_whole(line: &str) -> bool {
    let (mut inside, mut escaped) = (false, false);
    let mut outside = true;
    for byte in line.bytes() {
        match byte {
            _ if escaped => escaped = false,
            b'\\' if inside => escaped = true,
            b'"' => inside = !inside,
            _ if inside => outside &= (32..127).contains(&byte),
            _ => outside &= byte.is_ascii_alphanumeric() || b"{}[]:,".contains(&byte),
        }
    }
    outside && !inside && line.starts_with('{') && line.ends_with('}')
}

/// What the program says of each of these scripts.
fn ask(words: &[String], folder: &Path, edition: u32, scripts: &[Script]) -> Result<Vec<Vec<Told>>> {
    let name = |i: usize| folder.join(i.to_string()).display().to_string();
    let files: Vec<_> = (0..scripts.len()).map(name).collect();
    for (file, script) in files.iter().zip(scripts) {
        fs::write(file, &script.case.text)?;
    }
    let edition = edition.to_string();
    let output = Command::new(&words[0])
        .args(&words[1..])
        .args(["--edition", &edition, "check", "--json"])
        .args(&files)
        .output()?;
    let said = String::from_utf8_lossy(&output.stdout).into_owned();
    let mut all: HashMap<String, Vec<Told>> = HashMap::new();
    for object in said.lines() {
        assert!(is_whole(object), "no object of JSON: {object}");
        all.entry(text_of(object, "file")).or_default().push(told(object));
    }
    let answers = files.iter().map(|file| all.remove(file).unwrap_or_default()).collect();
    assert!(all.is_empty(), "something is said of no script: {:?}", all.keys());
    Ok(answers)
}

/// What a script's rows have apart from their places.
fn shape(rows: &Rows) -> Vec<(u32, u32, u32)> {
    let operator = |row: &[u32; NODE_WIDTH]| if [1, 5, 13].contains(&row[0]) { row[3] } else { 0 };
    rows.nodes.iter().map(|row| (row[0], row[PARENT], operator(row))).collect()
}

const FIRST_FORM: &str = "for `not` on the first alone, write: ";
const WHOLE_FORM: &str = "for `not` on all of it, write: ";

#[derive(Default)]
struct Count {
    scripts: usize,
    differ: usize,
    /// Of these, those that differ also as sets.
    as_sets: usize,
    met: [usize; 4],
    /// Scripts without a warning.
    quiet: usize,
    forms: usize,
    cut: usize,
    wrong: usize,
    /// The smallest script that differs, with its edition, and the smallest with a form that is wrong, with what is said.
    differing: Option<(u32, Vec<u8>)>,
    formed: Option<(Vec<u8>, String)>,
}

impl Count {
    fn wrong(&mut self, edition: u32, text: &[u8], said: &str) {
        self.wrong += 1;
        if self.formed.as_ref().is_none_or(|(smallest, _)| text.len() < smallest.len()) {
            self.formed = Some((text.to_vec(), format!("edition {edition}: {}\n  {said}", shown(text))));
        }
    }

    fn compare(&mut self, edition: u32, script: &Script, told: &[Told]) {
        self.scripts += 1;
        for (rule, met) in RULES.iter().zip(&mut self.met) {
            *met += script.warnings.iter().filter(|warning| warning.rule == *rule).count();
        }
        self.quiet += script.warnings.is_empty() as usize;
        let mut said = list(told);
        if said == script.warnings {
            return;
        }
        self.differ += 1;
        said.dedup();
        let mut judged = script.warnings.clone();
        judged.dedup();
        self.as_sets += (said != judged) as usize;
        let text = &script.case.text;
        if self.differing.as_ref().is_none_or(|(_, smallest)| text.len() < smallest.len()) {
            self.differing = Some((edition, text.clone()));
        }
    }
}

/// The program's warnings in order.
fn list(told: &[Told]) -> Vec<Warning> {
    let mut all: Vec<_> = told.iter().map(|told| told.warning.clone()).collect();
    all.sort();
    all
}

/// A script that differs, made smaller for as long as it differs without one to four of its tokens; with what is said of it.
fn shrunk(words: &[String], folder: &Path, lexer: &Lexer, edition: u32, text: &[u8]) -> Result<String> {
    let mut smallest = script(lexer, edition, text).expect("an accepted script");
    loop {
        let Case { text, tokens } = &smallest.case;
        let mut smaller = Vec::new();
        for length in (1..=4).rev() {
            for part in tokens.windows(length + 1) {
                let (from, upto) = (part[0].start as usize, part[length].start as usize);
                smaller.extend(script(lexer, edition, &[&text[..from], &text[upto..]].concat()));
            }
        }
        let mut next = None;
        while next.is_none() && !smaller.is_empty() {
            let mut part = smaller.split_off(smaller.len().saturating_sub(FILES));
            let told = ask(words, folder, edition, &part)?;
            next = part.iter().zip(&told).position(|(script, told)| list(told) != script.warnings);
            if let Some(at) = next {
                smallest = part.swap_remove(at);
            }
        }
        if next.is_none() {
            break;
        }
    }
    let told = ask(words, folder, edition, std::slice::from_ref(&smallest))?;
    let line = |all: &[Warning]| {
        let each = all.iter().map(|w| format!("{} {}:{}", w.rule, w.line, w.column));
        each.collect::<Vec<_>>().join(", ")
    };
    let (judge, program) = (line(&smallest.warnings), line(&list(&told[0])));
    let text = shown(&smallest.case.text);
    Ok(format!("edition {edition}: {text}\n  judge:   {judge}\n  program: {program}"))
}

/// What does not hold of a form of a warning of a `not` (whose extent it is) once it stands in the script.
fn fault(
    script: &Script,
    not: (usize, usize),
    start: usize,
    is_whole: bool,
    again: &Script,
) -> Option<&'static str> {
    let is_same = shape(&again.rows) == shape(&script.rows);
    if is_whole {
        return (!is_same).then_some("other rows with this for all of it");
    }
    // the `not` stands after one new parenthesis, and takes the same tokens up to the first `and` or `or`, which may have parentheses
    // of their own
    let text = str::from_utf8(&again.case.text).expect("ASCII");
    let place = place(text, start + 1);
    let warned = |warning: &Warning| warning.rule == REACHING_NOT && (warning.line, warning.column) == place;
    let kinds = |case: &Case, from: usize, upto: usize| {
        case.tokens[from..upto].iter().map(|token| token.kind).collect::<Vec<_>>()
    };
    let sign = reached(&script.case, &script.grouping, not)[0];
    let taken = again.grouping.nots.iter().find(|other| other.0 == not.0 + 1);
    let before = kinds(&script.case, not.0 + 1, sign);
    let grouped = [&[LEFT_PAREN], before.as_slice(), &[RIGHT_PAREN]].concat();
    let takes = taken.is_some_and(|taken| {
        let now = kinds(&again.case, taken.0 + 1, taken.1);
        now == before || now == grouped
    });
    if again.warnings.iter().any(warned) {
        Some("still warned of with this for the first alone")
    } else if is_same {
        Some("the same rows with this for the first alone")
    } else if !takes {
        Some("`not` does not take what stands before the first `and` or `or`")
    } else {
        None
    }
}

/// The scripts that the two forms of a warning of a `not` make. What does not hold of them is counted.
fn forms(lexer: &Lexer, edition: u32, script: &Script, told: &Told, count: &mut Count) -> Vec<Script> {
    let case = &script.case;
    let is_here = |not: &&(usize, usize)| case.tokens[not.0].start as usize == told.start;
    let Some(&not) = script.grouping.nots.iter().find(is_here) else { return Vec::new() };
    if reached(case, &script.grouping, not).is_empty() {
        return Vec::new(); // a difference already, as above
    }
    if told.end != case.tokens[not.1 - 1].end as usize {
        let said = format!("its part {}..{} is not the `not` and what it took", told.start, told.end);
        count.wrong(edition, &case.text, &said);
        return Vec::new();
    }
    let mut made = Vec::new();
    for (lead, is_whole) in [(FIRST_FORM, false), (WHOLE_FORM, true)] {
        let Some(form) = told.hints.iter().find_map(|hint| hint.strip_prefix(lead)) else {
            count.wrong(edition, &case.text, &format!("no hint `{lead}`"));
            continue;
        };
        if form.contains("..") {
            count.cut += 1;
            continue;
        }
        count.forms += 1;
        let text = [&case.text[..told.start], form.as_bytes(), &case.text[told.end..]].concat();
        let Some(again) = self::script(lexer, edition, &text) else {
            count.wrong(edition, &case.text, &format!("not accepted with this: {form}"));
            continue;
        };
        if let Some(fault) = fault(script, not, told.start, is_whole, &again) {
            count.wrong(edition, &case.text, &format!("{fault}: {form}"));
        }
        made.push(again);
    }
    made
}

/// A `not` and what it took, with bytes that take four places each where they are shown: more than a line of the program holds.
fn wide() -> Vec<u8> {
    [b"not \"", &[1; 1100][..], b"\" and \"", &[2; 900], b"\";"].concat()
}

fn run(words: &[String], folder: &Path, wish: &Wish) -> Result<ExitCode> {
    let lexer = Lexer::new();
    let mut count = Count::default();
    for &edition in &wish.editions {
        let mut random = Random::of(wish.seed, 0);
        let mut texts = warnable::short(edition, wish.short, &mut random);
        texts.push(wide());
        let short = texts.len();
        let mut index = 0;
        let mut done = 0;
        while done < short + wish.n {
            let mut part = Vec::new();
            while part.len() < FILES && done + part.len() < short + wish.n {
                let text = texts.pop().unwrap_or_else(|| {
                    index += 1;
                    warnable::text(edition, &mut Random::of(wish.seed, index * 2 + edition as u64))
                });
                part.extend(script(&lexer, edition, &text));
            }
            done += part.len();
            let mut formed = Vec::new();
            let answers = ask(words, folder, edition, &part)?;
            for (script, told) in part.iter().zip(&answers) {
                count.compare(edition, script, told);
                if wish.forms {
                    for told in told.iter().filter(|told| told.warning.rule == REACHING_NOT) {
                        formed.extend(forms(&lexer, edition, script, told, &mut count));
                    }
                }
            }
            for part in formed.chunks(FILES) {
                for (script, told) in part.iter().zip(&ask(words, folder, edition, part)?) {
                    count.compare(edition, script, told);
                }
            }
        }
        println!("edition {edition}: {short} short scripts, {} others", wish.n);
    }
    let Count { scripts, differ, as_sets, met, quiet, forms, cut, wrong, differing, formed } = count;
    if let Some((edition, text)) = differing {
        println!("a smallest script that differs, in {}", shrunk(words, folder, &lexer, edition, &text)?);
        println!("{as_sets} differ as sets");
    }
    if let Some((_, said)) = formed {
        println!("the smallest script with a form that does not hold, in {said}");
    }
    let met: Vec<_> = RULES.iter().zip(met).map(|(rule, met)| format!("{rule} {met}")).collect();
    println!("met: {}; no warning in {quiet} scripts", met.join(", "));
    if wish.forms {
        println!("{forms} forms read again, {cut} cut short, {wrong} do not hold");
    }
    println!("{scripts} scripts, {differ} differences");
    Ok(ExitCode::from((differ + wrong > 0) as u8))
}

struct Wish {
    n: usize,
    seed: u64,
    editions: Vec<u32>,
    short: usize,
    forms: bool,
}

/// What is asked for, and the program's words.
fn wish() -> Option<(Wish, Vec<String>)> {
    let mut words = std::env::args().skip(1).peekable();
    let mut wish =
        Wish { n: words.next()?.parse().ok()?, seed: 1, editions: vec![1, 2], short: 6, forms: false };
    while let Some(option) = words.next_if(|word| word.starts_with("--")) {
        match option.as_str() {
            "--forms" => wish.forms = true,
            "--seed" => wish.seed = words.next()?.parse().ok()?,
            "--short" => wish.short = words.next()?.parse().ok()?,
            "--edition" => wish.editions = vec![words.next()?.parse().ok().filter(|e| [1, 2].contains(e))?],
            _ => return None,
        }
    }
    let words: Vec<_> = words.collect();
    (!words.is_empty()).then_some((wish, words))
}

fn main() -> ExitCode {
    let Some((wish, words)) = wish() else {
        eprintln!("usage: warnings N [--seed S] [--edition E] [--short L] [--forms] PROGRAM..");
        return ExitCode::from(2);
    };
    let folder = std::env::temp_dir().join(format!("kaori-warnings-{}", std::process::id()));
    let work = move || {
        let done = fs::create_dir(&folder).and_then(|()| run(&words, &folder, &wish));
        let gone = fs::remove_dir_all(&folder);
        done.and_then(|code| gone.map(|()| code))
    };
    match oracle::with_large_stack(work) {
        Ok(code) => code,
        Err(error) => {
            eprintln!("{error}");
            ExitCode::from(2)
        }
    }
}
