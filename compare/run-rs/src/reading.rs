//! One reading, answered by both.

use crate::guard::{self, caught, last_panic, PANIC};
use crate::listed::Listed;
use crate::norrabist::{Norrabist, Walk};
use crate::verdict::Verdict;
use judge::account::{self, Stands};
use judge::case::Case;
use judge::table::record_type::HANDSHAKE;
use judge::table::{MANY, PLAINTEXT, WITH_HEADER};
use judge::{answer, text};

type Reader = Box<dyn Fn(&Case, &mut Vec<u64>)>;

/// The answers to the last reading.
pub struct Reading {
    /// tls-parser's readers; others where a fault is tried.
    pub tls_parser_reads: Reader,
    tls_parser: Vec<u64>,
    /// What is to be answered where an account is kept of the case.
    account: Vec<u64>,
    stands: Stands,
    norrabist: Vec<u64>,
    /// The walk over records, by the account and as Norrabist does it.
    walks: Option<(Walk, Option<Walk>)>,
}

impl Default for Reading {
    fn default() -> Self {
        Reading {
            tls_parser_reads: Box::new(answer::read),
            tls_parser: Vec::new(),
            account: Vec::new(),
            stands: Stands::Alike,
            norrabist: Vec::new(),
            walks: None,
        }
    }
}

/// The readers whose messages Norrabist also walks over.
pub fn is_walked(function: &str) -> bool {
    matches!(function, PLAINTEXT | WITH_HEADER | MANY)
}

/// Whether NoSuch is asked for behind the last message: of a handshake record.
pub fn has_end(case: &Case) -> bool {
    matches!(case.function, PLAINTEXT | WITH_HEADER) && case.input.first() == Some(&HANDSHAKE)
}

impl Reading {
    pub fn compare(&mut self, norrabist: &impl Norrabist, case: &Case) -> Verdict {
        self.walks = None;
        guard::numbers(&mut self.norrabist, |to| norrabist.read(case, to));
        guard::numbers(&mut self.tls_parser, |to| (self.tls_parser_reads)(case, to));
        if self.norrabist == [PANIC] || self.tls_parser == [PANIC] {
            self.stands = Stands::Alike;
            return Verdict::Differs;
        }
        self.stands = match account::is_kept(case) {
            true => account::of(case, &self.tls_parser, &mut self.account),
            false => Stands::Alike,
        };
        let asked = if self.stands == Stands::Alike { &self.tls_parser } else { &self.account };
        match (self.stands, self.norrabist.first()) {
            (Stands::Amiss, _) | (_, None) => Verdict::Differs,
            _ if self.norrabist != *asked => Verdict::Differs,
            (Stands::Alike, Some(first)) => self.compare_walks(norrabist, case, Verdict::Same(*first)),
            (Stands::Parted(class), Some(first)) => {
                self.compare_walks(norrabist, case, Verdict::Listed(class.into(), *first))
            }
        }
    }

    /// Of records that were accepted also the walk, which tls-parser has not.
    fn compare_walks(&mut self, norrabist: &impl Norrabist, case: &Case, verdict: Verdict) -> Verdict {
        if !is_walked(case.function) || self.norrabist[0] != 0 {
            return verdict;
        }
        let (messages, dropped) = account::walked(case);
        let end = if has_end(case) { Listed::NoSuch.number() } else { 0 };
        let walk = Walk { messages, end, dropped };
        let walked = caught(|| norrabist.walk(case));
        self.walks = Some((walk, walked));
        if walked == Some(walk) {
            verdict
        } else {
            Verdict::Differs
        }
    }

    /// What both said: tls-parser, Norrabist.
    pub fn told(&self) -> (String, String) {
        let tls_parser = match self.stands {
            Stands::Alike => told(&self.tls_parser),
            Stands::Parted(_) => {
                format!("{}, to be answered {}", told(&self.tls_parser), told(&self.account))
            }
            Stands::Amiss => {
                format!("{}, which is neither {} nor listed", told(&self.tls_parser), told(&self.account))
            }
        };
        let norrabist = told(&self.norrabist);
        match &self.walks {
            None => (tls_parser, norrabist),
            Some((walk, None)) => {
                (format!("{tls_parser}, {walk:?}"), format!("{norrabist}, {}", told(&[PANIC])))
            }
            Some((walk, Some(walked))) => {
                (format!("{tls_parser}, {walk:?}"), format!("{norrabist}, {walked:?}"))
            }
        }
    }
}

fn told(numbers: &[u64]) -> String {
    match numbers {
        [PANIC] => format!("a panic: {}", last_panic()),
        [] => "no number of the table".into(),
        _ => text::numbers(numbers),
    }
}
