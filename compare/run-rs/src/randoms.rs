//! What both hand out of the random of every ClientHello of a case: its time and its bytes.

use crate::guard::{self, last_panic, PANIC};
use crate::norrabist::Norrabist;
use crate::verdict::Verdict;
use judge::case::Case;
use judge::made::Client;
use judge::table::*;
use judge::{randoms, text};

/// What both said of the last case, and how many were compared.
#[derive(Default)]
pub struct Randoms {
    tls_parser: Vec<u64>,
    norrabist: Vec<u64>,
    /// Cases with a ClientHello that was read or made up.
    pub compared: u64,
    /// Those made up with a random of four bytes, the only ones whose time can be other than 0.
    pub of_four: u64,
}

impl Randoms {
    /// Whether both say the same, of what was accepted by a reader or made up for a writer.
    pub fn compare(&mut self, norrabist: &impl Norrabist, case: &Case, verdict: Verdict) -> bool {
        self.tls_parser.clear();
        self.norrabist.clear();
        let made_up = case.function == GEN_CLIENT_HELLO;
        if !(made_up || is_asked(case.function) && verdict.is_accepted()) {
            return true;
        }
        guard::numbers(&mut self.tls_parser, |to| randoms::read(case, to));
        guard::numbers(&mut self.norrabist, |to| norrabist.randoms(case, to));
        self.compared += u64::from(!self.tls_parser.is_empty());
        self.of_four += u64::from(made_up && Client::read(&case.input).random.len() == 4);
        self.tls_parser == self.norrabist && self.tls_parser != [PANIC]
    }

    /// What both said, if they were asked: tls-parser, Norrabist.
    pub fn told(&self) -> Option<(String, String)> {
        let asked = !self.tls_parser.is_empty() || !self.norrabist.is_empty();
        asked.then(|| (told(&self.tls_parser), told(&self.norrabist)))
    }
}

/// The readers that can find a ClientHello.
pub fn is_asked(function: &str) -> bool {
    let of_body = [CLIENT_HELLO, CLIENT_HELLO_STRICT, MSG_CLIENT_HELLO, MSG_CLIENT_HELLO_STRICT];
    of_body.contains(&function) || matches!(function, MESSAGE | PLAINTEXT)
}

fn told(numbers: &[u64]) -> String {
    match numbers {
        [PANIC] => format!("a panic: {}", last_panic()),
        [] => "no random".into(),
        _ => format!("rand_time and rand_bytes {}", text::numbers(numbers)),
    }
}
