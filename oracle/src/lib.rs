//! The original Rust parser as the judge: what the program `rows` must print for an input.
pub mod answer;
pub mod beside;
pub mod builtins;
pub mod case;
pub mod choices;
pub mod corners;
pub mod could;
pub mod coverage;
pub mod damages;
pub mod door;
pub mod drawn;
pub mod drops;
pub mod editions;
pub mod fixed;
pub mod frame;
pub mod grouping;
pub mod grown;
pub mod guards;
pub mod hostile;
pub mod joined;
pub mod judge;
pub mod kept;
pub mod kinds;
pub mod lexer;
pub mod lines;
pub mod list;
pub mod loads;
pub mod numbers;
pub mod questions;
pub mod random;
pub mod rooms;
pub mod rows;
pub mod rowsets;
pub mod scripts;
pub mod show;
pub mod shrink;
pub mod slots;
pub mod stations;
pub mod subject;
pub mod table;
pub mod terms;
pub mod texts;
pub mod tight;
pub mod told;
pub mod verdicts;
pub mod warnable;
pub mod warned;
pub mod written;

pub use answer::{LIMIT, answer, answer_with};

/// Runs `work` with stack enough for the original parser on any input of `rows`.
pub fn with_large_stack<T: Send + 'static>(work: impl FnOnce() -> T + Send + 'static) -> T {
    match large_thread(work).join() {
        Ok(result) => result,
        Err(panic) => std::panic::resume_unwind(panic),
    }
}

/// A thread with so much stack.
pub fn large_thread<T: Send + 'static>(
    work: impl FnOnce() -> T + Send + 'static,
) -> std::thread::JoinHandle<T> {
    std::thread::Builder::new().stack_size(256 << 20).spawn(work).expect("a thread")
}
