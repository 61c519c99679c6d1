//! The program that is compared with the original: run once for each case, or once for a framed stream of them.
use std::{
    io::{BufReader, BufWriter, Read, Write},
    process::{Child, ChildStdin, ChildStdout, Command, ExitStatus, Stdio},
    sync::mpsc::{Receiver, RecvTimeoutError, sync_channel},
    thread,
    time::{Duration, Instant},
};

use crate::{frame, large_thread};

/// After so long without an answer a program is ended.
pub const PATIENCE: Duration = Duration::from_secs(20);

#[derive(Clone)]
pub struct Subject {
    pub words: Vec<String>,
    pub batch: bool,
}

/// What was printed for a case, or how the program failed.
pub type Answer = Result<Vec<u8>, String>;

impl Subject {
    fn start(&self) -> Result<(Child, ChildStdin, ChildStdout), String> {
        let mut command = Command::new(&self.words[0]);
        command.args(&self.words[1..]).stdin(Stdio::piped()).stdout(Stdio::piped());
        let mut child = command.spawn().map_err(|e| format!("{}: {e}", self.words[0]))?;
        let input = child.stdin.take().expect("piped");
        let output = child.stdout.take().expect("piped");
        Ok((child, input, output))
    }

    /// The answer to one case, by a run of its own.
    pub fn one(&self, case: &[u8]) -> Answer {
        if self.batch {
            let mut answers = Vec::new();
            let cases = vec![case.to_vec()];
            self.stream(cases.into_iter(), |answer| {
                answers.push(answer);
                true
            })?;
            return answers.into_iter().next().unwrap_or(Err("no answer".into()));
        }
        let (mut child, mut input, mut output) = self.start()?;
        let case = case.to_vec();
        thread::spawn(move || input.write_all(&case)); // a program may end before it has read all
        let (send, answers) = sync_channel(1);
        thread::spawn(move || {
            let mut bytes = Vec::new();
            let read = output.read_to_end(&mut bytes).map_err(|e| e.to_string());
            let _ = send.send(read.map(|_| bytes));
        });
        let answer = next(&answers);
        let status = ended(&mut child, answer.is_err())?;
        let bytes = answer?;
        if status.success() { Ok(bytes) } else { Err(format!("the program failed: {status}")) }
    }

    /// Hands the answers to a stream of cases on, in order, for as long as they are wanted. An error is a failure
    /// that belongs to no case.
    pub fn stream(
        &self,
        cases: impl Iterator<Item = Vec<u8>> + Send + 'static,
        mut each: impl FnMut(Answer) -> bool,
    ) -> Result<(), String> {
        let (mut child, input, output) = self.start()?;
        large_thread(move || {
            let mut input = BufWriter::new(input);
            for case in cases {
                if frame::write(&mut input, &case).is_err() {
                    return; // the reader sees the early end
                }
            }
            let _ = input.flush();
        });
        let (send, answers) = sync_channel(1_024);
        thread::spawn(move || {
            let mut output = BufReader::new(output);
            loop {
                let frame = frame::read(&mut output).map_err(|e| format!("a broken answer: {e}"));
                let is_last = !matches!(frame, Ok(Some(_)));
                if send.send(frame).is_err() || is_last {
                    return;
                }
            }
        });
        loop {
            let wanted = match next(&answers) {
                Ok(Some(answer)) => each(Ok(answer)),
                Ok(None) => {
                    let status = ended(&mut child, false)?;
                    return if status.success() {
                        Ok(())
                    } else {
                        Err(format!("the program failed: {status}"))
                    };
                }
                Err(failure) => {
                    each(Err(failure));
                    false
                }
            };
            if !wanted {
                ended(&mut child, true)?;
                return Ok(());
            }
        }
    }
}

fn next<T>(answers: &Receiver<Result<T, String>>) -> Result<T, String> {
    match answers.recv_timeout(PATIENCE) {
        Ok(answer) => answer,
        Err(RecvTimeoutError::Timeout) => Err(format!("no answer within {} s", PATIENCE.as_secs())),
        Err(RecvTimeoutError::Disconnected) => Err("no more answers".into()),
    }
}

/// Waits for a program to end; by force it ends at once, and otherwise when patience does.
fn ended(child: &mut Child, by_force: bool) -> Result<ExitStatus, String> {
    let start = Instant::now();
    loop {
        if by_force || start.elapsed() > PATIENCE {
            let _ = child.kill();
        }
        if let Some(status) = child.try_wait().map_err(|e| e.to_string())? {
            return Ok(status);
        }
        thread::sleep(Duration::from_micros(100));
    }
}
