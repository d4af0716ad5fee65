//! How exact every ClientHello is that was accepted: what Norrabist says of the value, and the
//! account of the strict ClientHello of the bytes.

use crate::guard::{self, last_panic, PANIC};
use crate::norrabist::Norrabist;
use crate::randoms::is_asked;
use crate::tally::grouped;
use crate::verdict::Verdict;
use judge::case::Case;
use judge::exactness::{self, SAID};

/// What both said of the last case, and how often each was said.
#[derive(Default)]
pub struct Exactness {
    account: Vec<u64>,
    norrabist: Vec<u64>,
    hellos: [u64; SAID.len()],
}

impl Exactness {
    /// Whether both say the same, of what was accepted.
    pub fn compare(&mut self, norrabist: &impl Norrabist, case: &Case, verdict: Verdict) -> bool {
        self.account.clear();
        self.norrabist.clear();
        if !is_asked(case.function) || !verdict.is_accepted() {
            return true;
        }
        guard::numbers(&mut self.account, |to| exactness::read(case, to));
        guard::numbers(&mut self.norrabist, |to| norrabist.exactness(case, to));
        if self.account != self.norrabist || self.account == [PANIC] {
            return false;
        }
        self.account.iter().for_each(|said| self.hellos[*said as usize] += 1);
        true
    }

    /// What both said, if there is a hello: the account, Norrabist.
    pub fn told(&self) -> Option<(String, String)> {
        let asked = !self.account.is_empty() || !self.norrabist.is_empty();
        asked.then(|| (told(&self.account), told(&self.norrabist)))
    }

    /// How many hellos there were, by what was said of them.
    pub fn table(&self) -> String {
        let each = self.hellos.iter().zip(SAID).map(|(n, said)| format!("{} {said}", grouped(*n)));
        let all = grouped(self.hellos.iter().sum());
        format!("exactness of {all} hellos: {}", each.collect::<Vec<_>>().join(", "))
    }
}

fn told(numbers: &[u64]) -> String {
    match numbers {
        [PANIC] => format!("a panic: {}", last_panic()),
        [] => "no hello".into(),
        _ => {
            let said = |n: &u64| SAID.get(*n as usize).copied().unwrap_or("no such number");
            numbers.iter().map(said).collect::<Vec<_>>().join(", ")
        }
    }
}
