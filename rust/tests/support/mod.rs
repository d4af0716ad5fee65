//! Norrabist's answer to a case of the recorded list, in the list's numbers (`compare/README.md`).
//! It rests on the Rust binding alone.
#![allow(dead_code)] // each test takes what it needs

pub mod extensions;
pub mod hellos;
pub mod sheet;
pub mod table;
pub mod text;
pub mod values;
pub mod writing;

use norrabist::{Reason, Refusal};

/// An answer with the reason of its refusal.
pub fn reasons<T>(answer: Result<T, Refusal>) -> Result<T, Reason> {
    answer.map_err(|refusal| refusal.reason)
}

/// The readers and writers, by their names in tls-parser, and the strict readers.
pub fn functions() -> impl Iterator<Item = &'static str> {
    table::READERS.iter().chain([&extensions::READER]).chain(writing::WRITERS).copied()
}

/// The numbers of the answer: none where there is no such function, the length is one too many or
/// missing, or the input is no value of the writer.
pub fn answer(function: &str, len: Option<usize>, input: &[u8]) -> Vec<u64> {
    if (function, len) == (extensions::READER, None) {
        return extensions::answer(input);
    }
    let read = table::read(function, len, input);
    let answer = match len {
        Some(_) => read,
        None => read.or_else(|| writing::answer(function, input)),
    };
    answer.unwrap_or_default()
}
