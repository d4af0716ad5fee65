//! The text of inputs and of answers, both with their runs folded.

use crate::bytes::hex;

/// What stands before the answer of tls-parser where it is not the one to give.
pub const PARTED: &str = " / ";

const INPUT_RUN: usize = 16;
const ANSWER_RUN: usize = 8;

/// Splits into runs of equal items: (item, how many).
fn runs<T: Copy + PartialEq>(items: &[T]) -> Vec<(T, usize)> {
    items.chunk_by(|a, b| a == b).map(|run| (run[0], run.len())).collect()
}

/// Hex words, a run of 16 and more as `hh*N`; `.` for no bytes.
pub fn input(bytes: &[u8]) -> String {
    let mut words = Vec::new();
    let mut plain = String::new();
    for (byte, n) in runs(bytes) {
        if n < INPUT_RUN {
            plain.push_str(&format!("{byte:02x}").repeat(n));
            continue;
        }
        if !plain.is_empty() {
            words.push(std::mem::take(&mut plain));
        }
        words.push(format!("{byte:02x}*{n}"));
    }
    if !plain.is_empty() || words.is_empty() {
        words.push(if plain.is_empty() { ".".into() } else { plain });
    }
    words.join(" ")
}

/// The bytes of words written by `input`.
pub fn read_input<'a>(words: impl Iterator<Item = &'a str>) -> Result<Vec<u8>, String> {
    let mut out = Vec::new();
    for word in words.filter(|w| *w != ".") {
        match word.split_once('*') {
            None => out.extend(hex(word)),
            Some((byte, n)) => {
                let n: usize = n.parse().map_err(|_| format!("run {word}"))?;
                out.extend(std::iter::repeat_n(hex(byte)[0], n));
            }
        }
    }
    Ok(out)
}

/// Decimal numbers, a run of 8 and more as `n*k`.
pub fn numbers(all: &[u64]) -> String {
    let mut words = Vec::new();
    for (n, k) in runs(all) {
        if k < ANSWER_RUN {
            words.extend(std::iter::repeat_n(n.to_string(), k));
        } else {
            words.push(format!("{n}*{k}"));
        }
    }
    words.join(" ")
}
