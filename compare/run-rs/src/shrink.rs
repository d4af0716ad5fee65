//! A smaller case that fails too.

mod bytes;
mod lengths;

use crate::parts::Parts;
use judge::case::Case;
use judge::table::*;
use judge::{extension, write};
use std::time::{Duration, Instant};

/// No new try begins behind so long a time.
const TIME: Duration = Duration::from_secs(5);

/// Up to so many bytes a part is tried byte by byte and value by value.
const SHORT: usize = 80;

type Fails<'a> = &'a mut dyn FnMut(&Case) -> bool;

struct Smallest<'a> {
    function: &'static str,
    length: Option<u64>,
    value: Parts,
    fails: Fails<'a>,
    end: Instant,
    moved: bool,
}

/// Leaves out bytes and parts, makes bytes and the length argument smaller, while the
/// case still fails.
pub fn shrink(case: &Case, fails: Fails) -> Case {
    let (function, length) = (case.function, case.length);
    let end = Instant::now() + TIME;
    let mut best = Smallest { function, length, value: Parts::split(case), fails, end, moved: true };
    while best.moved {
        best.moved = false;
        best.leave_out_parts();
        for part in 0..best.value.parts.len() {
            best.leave_out(part);
            best.zero(part);
            best.lower(part);
            best.lower_and_leave_out(part);
        }
        best.lower_numbers();
        best.lower_length();
    }
    best.case()
}

/// Whether a value is one that a writer can be asked for.
fn is_value(case: &Case) -> bool {
    let i = &case.input[..];
    match case.function {
        GEN_CLIENT_KEY => i.first().is_some_and(|first| *first <= form::ECDH),
        GEN_HELLO_REQUEST | GEN_CIPHER_SPEC => i.is_empty(),
        GEN_ANY => is_any(i),
        GEN_MESSAGE => write::message(i).is_some(),
        GEN_PLAINTEXT => i.len() >= 3 && write::is_written(&i[3..]),
        GEN_EXTENSION => extension::one(i).is_some(),
        GEN_EXTENSIONS => extension::row(i).is_some(),
        _ => true,
    }
}

/// The same of a message of any record.
fn is_any(i: &[u8]) -> bool {
    match i {
        [record_type::HANDSHAKE, m @ ..] => write::message(m).is_some(),
        [record_type::CHANGE_CIPHER_SPEC, m @ ..] => m.is_empty(),
        [record_type::ALERT, m @ ..] => m.len() == 2,
        [record_type::APPLICATION_DATA, ..] => true,
        [record_type::HEARTBEAT, m @ ..] => !m.is_empty(),
        _ => false,
    }
}

impl Smallest<'_> {
    fn case(&self) -> Case {
        Case { function: self.function, length: self.length, input: self.value.input() }
    }

    fn is_late(&self) -> bool {
        Instant::now() >= self.end
    }

    /// Keeps the value where it fails.
    fn tried(&mut self, value: Parts, length: Option<u64>) -> bool {
        let case = Case { function: self.function, length, input: value.input() };
        let kept = !self.is_late() && is_value(&case) && (self.fails)(&case);
        if kept {
            (self.value, self.length) = (value, length);
            self.moved = true;
        }
        kept
    }

    /// Tries another content of a part.
    fn tried_part(&mut self, part: usize, bytes: Vec<u8>) -> bool {
        let mut value = self.value.clone();
        value.parts[part].bytes = bytes;
        self.tried(value, self.length)
    }

    fn bytes(&self, part: usize) -> &[u8] {
        &self.value.parts[part].bytes
    }

    /// Leaves out optional parts.
    fn leave_out_parts(&mut self) {
        for part in 0..self.value.parts.len() {
            let one = &self.value.parts[part];
            if one.optional && one.there {
                let mut value = self.value.clone();
                value.parts[part].there = false;
                value.parts[part].bytes.clear();
                self.tried(value, self.length);
            }
        }
    }

    /// Makes the numbers before the parts zero.
    fn lower_numbers(&mut self) {
        for at in 0..self.value.numbers.len() {
            let mut value = self.value.clone();
            value.numbers[at] = 0;
            if self.value.numbers[at] > 0 {
                self.tried(value, self.length);
            }
        }
    }

    /// Makes the length argument smaller.
    fn lower_length(&mut self) {
        while let Some(n @ 1..) = self.length {
            let some = [0, n / 2, n - 1].into_iter().any(|n| self.tried(self.value.clone(), Some(n)));
            if !some {
                break;
            }
        }
    }
}
