//! The original as a program: prints what `rows` must print for standard input; with `--batch`, answers a
//! framed stream of such inputs. With `--verdicts` it is the checker of `verdicts.rs`, and answers a framed stream of row sets. With
//! `--loads` it is the judge of `loads.rs`, and answers a framed stream of station's calls. With `--drops` it is the judge of `drops.rs`, and
//! answers a framed stream of choices.
//! ORACLE_DAMAGE=TEXT spoils the answers that contain TEXT, so that a comparison can be tried; of a row set's answer that text is
//! the code, the rule and the row, each after a blank, of a call's the code and the room for the answers, and of a choice's its six numbers.
use std::io::{self, BufReader, BufWriter, Read, Write};

use oracle::{
    drops::Dropping, frame, lexer::Lexer, loads::Load, rooms::Judge, texts::encoded, verdicts::RowSet,
};

fn main() -> io::Result<()> {
    let damage = std::env::var("ORACLE_DAMAGE").ok();
    let mode = std::env::args().nth(1);
    let batch = mode.as_deref() == Some("--batch");
    if mode.as_deref() == Some("--verdicts") {
        return verdicts(damage.as_deref());
    }
    if mode.as_deref() == Some("--loads") {
        return oracle::with_large_stack(move || loads(damage.as_deref()));
    }
    if mode.as_deref() == Some("--drops") {
        return oracle::with_large_stack(move || drops(damage.as_deref()));
    }
    oracle::with_large_stack(move || {
        let mut judge = Judge::default();
        let mut answered = |case: &[u8]| {
            let answer = judge.answer(case);
            let text = String::from_utf8_lossy(&answer).into_owned();
            spoiled(answer, &text, damage.as_deref())
        };
        let mut input = BufReader::new(io::stdin().lock());
        let mut output = BufWriter::new(io::stdout().lock());
        if batch {
            while let Some(case) = frame::read(&mut input)? {
                frame::write(&mut output, &answered(&case))?;
            }
        } else {
            let mut case = Vec::new();
            input.read_to_end(&mut case)?;
            output.write_all(&answered(&case))?;
        }
        output.flush()
    })
}

/// Ends at a frame that is broken.
fn verdicts(damage: Option<&str>) -> io::Result<()> {
    let mut input = BufReader::new(io::stdin().lock());
    let mut output = BufWriter::new(io::stdout().lock());
    while let Some(frame) = frame::read(&mut input)? {
        let Some(set) = RowSet::decode(&frame) else { return Err(io::ErrorKind::InvalidData.into()) };
        let answer = set.answer();
        let text: String = answer[..3].iter().map(|number| format!(" {number}")).collect();
        frame::write(&mut output, &spoiled(encoded(&answer), &text, damage))?;
    }
    output.flush()
}

/// Ends at a frame that is broken.
fn loads(damage: Option<&str>) -> io::Result<()> {
    let mut input = BufReader::new(io::stdin().lock());
    let mut output = BufWriter::new(io::stdout().lock());
    let lexer = Lexer::new();
    while let Some(frame) = frame::read(&mut input)? {
        let Some(load) = Load::decode(&frame) else { return Err(io::ErrorKind::InvalidData.into()) };
        let (left, _) = load.left(&lexer);
        let text: String =
            [left.code].iter().chain(&left.answers).map(|number| format!(" {number}")).collect();
        frame::write(&mut output, &spoiled(left.encode(), &text, damage))?;
    }
    output.flush()
}

/// Ends at a frame that is broken.
fn drops(damage: Option<&str>) -> io::Result<()> {
    let mut input = BufReader::new(io::stdin().lock());
    let mut output = BufWriter::new(io::stdout().lock());
    while let Some(frame) = frame::read(&mut input)? {
        let Some(call) = Dropping::decode(&frame) else { return Err(io::ErrorKind::InvalidData.into()) };
        let left = call.left();
        let text: String = left.answer.iter().map(|number| format!(" {number}")).collect();
        frame::write(&mut output, &spoiled(left.encode(), &text, damage))?;
    }
    output.flush()
}

fn spoiled(mut answer: Vec<u8>, text: &str, damage: Option<&str>) -> Vec<u8> {
    if damage.is_some_and(|damage| text.contains(damage)) {
        answer[0] = b'?';
    }
    answer
}
