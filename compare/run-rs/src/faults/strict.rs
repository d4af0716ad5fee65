//! Faults of the strict readers of a ClientHello, and of what is said of how exact one is. Where
//! they apply is told by the account.
#![allow(clippy::ptr_arg)] // they all have one type

use judge::account::strict::{strict, Refused};
use judge::answer;
use judge::case::Case;
use judge::exactness::{EXACT, HAS_TAIL, NO_CIPHERS, NO_METHODS};
use judge::table::refusal::{INCOMPLETE, LENGTH_VALUE};
use judge::table::*;

/// The plain reader of the same, for a strict one.
fn plain(function: &str) -> Option<&'static str> {
    match function {
        CLIENT_HELLO_STRICT => Some(CLIENT_HELLO),
        MSG_CLIENT_HELLO_STRICT => Some(MSG_CLIENT_HELLO),
        _ => None,
    }
}

/// The plain reader's answer, where the account refuses so.
fn taken(case: &Case, to: &mut Vec<u64>, so: fn(&Refused) -> bool) {
    let Some(function) = plain(case.function) else { return };
    if strict(&case.input).is_err_and(|refused| so(&refused)) {
        to.clear();
        answer::read(&Case { function, ..case.clone() }, to);
    }
}

pub fn no_ciphers(case: &Case, to: &mut Vec<u64>) {
    taken(case, to, |refused| matches!(refused, Refused::NoCiphers(_)));
}

pub fn no_methods(case: &Case, to: &mut Vec<u64>) {
    taken(case, to, |refused| matches!(refused, Refused::NoMethods(_)));
}

pub fn tail(case: &Case, to: &mut Vec<u64>) {
    taken(case, to, |refused| matches!(refused, Refused::Tail(_)));
}

/// The cipher length is 0, and nothing stands behind it.
pub fn early(case: &Case, to: &mut Vec<u64>) {
    let end = 37 + case.input.get(34).map_or(0, |id| usize::from(*id));
    if plain(case.function).is_some()
        && *to == [INCOMPLETE]
        && case.input.len() == end
        && case.input.ends_with(&[0, 0])
    {
        *to = vec![LENGTH_VALUE];
    }
}

/// LengthValue for a message that the account takes and that has no extensions.
pub fn absent(case: &Case, to: &mut Vec<u64>) {
    let is_absent = strict(&case.input).is_ok_and(|hello| hello.ext.is_none());
    if case.function == MSG_CLIENT_HELLO_STRICT && is_absent {
        *to = vec![LENGTH_VALUE];
    }
}

/// Of a body alone, where the account also knows a tail behind an empty list.
pub fn tail_first(case: &Case, to: &mut Vec<u64>) {
    let has_tail =
        || judge::account::strict::plain(&case.input).is_ok_and(|hello| hello.rest < case.input.len());
    if case.function == CLIENT_HELLO && [NO_CIPHERS, NO_METHODS].contains(&to[0]) && has_tail() {
        to[0] = HAS_TAIL;
    }
}

/// Wherever it stands.
pub fn methods_unseen(_: &Case, to: &mut Vec<u64>) {
    to.iter_mut().filter(|said| **said == NO_METHODS).for_each(|said| *said = EXACT);
}
