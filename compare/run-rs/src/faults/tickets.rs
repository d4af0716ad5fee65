//! Faults of a NewSessionTicket's length. Where they apply is told by the account.
#![allow(clippy::ptr_arg)] // they all have one type

use judge::account::ticket::{given, lifetime, ticket, Refused, Ticket};
use judge::account::{self, Class, Stands};
use judge::answer;
use judge::case::Case;
use judge::table::refusal::{INCOMPLETE, LENGTH_VALUE};
use judge::table::*;

/// How many bytes stand before the ticket of a body.
const HEAD: usize = 6;

/// What the account says of a body alone, and its given length.
fn alone(case: &Case) -> Option<(Result<Ticket, Refused>, usize)> {
    let length = case.length.filter(|_| case.function == MSG_TICKET)? as usize;
    Some((given(&case.input, length), length))
}

/// The length of a ticket that has one.
fn told(case: &Case) -> usize {
    usize::from(case.input[4]) << 8 | usize::from(case.input[5])
}

/// Place of the rest, kind, lifetime and ticket, which goes from `at` up to `end`.
fn taken(case: &Case, rest: usize, at: usize, end: usize) -> Vec<u64> {
    let lifetime = lifetime(&case.input).into();
    vec![0, rest as u64, kind::NewSessionTicket.into(), lifetime, at as u64, (end - at) as u64]
}

pub fn kept(case: &Case, to: &mut Vec<u64>) {
    if let Some((Ok(_), length)) = alone(case) {
        *to = taken(case, length, HEAD - 2, length);
    }
}

pub fn missing(case: &Case, to: &mut Vec<u64>) {
    if let Some((Err(Refused::NoLength), length)) = alone(case) {
        *to = taken(case, length, length, length);
    }
}

pub fn incomplete(case: &Case, to: &mut Vec<u64>) {
    if let Some((Err(Refused::NoLength), _)) = alone(case) {
        *to = vec![INCOMPLETE];
    }
}

/// The ticket is what there is.
pub fn over(case: &Case, to: &mut Vec<u64>) {
    match alone(case) {
        Some((Err(Refused::Unlike), length)) if HEAD + told(case) > length => {
            *to = taken(case, length, HEAD, length);
        }
        _ => {}
    }
}

/// The ticket is what the length says.
pub fn under(case: &Case, to: &mut Vec<u64>) {
    match alone(case) {
        Some((Err(Refused::Unlike), length)) if HEAD + told(case) < length => {
            *to = taken(case, length, HEAD, HEAD + told(case));
        }
        _ => {}
    }
}

/// The length is held against all bytes there are.
pub fn behind(case: &Case, to: &mut Vec<u64>) {
    let all = case.input.len();
    match alone(case) {
        Some((_, length)) if (4..all).contains(&length) => {
            *to = match ticket(&case.input) {
                Ok(_) => taken(case, length, HEAD, all),
                Err(refused) => vec![refused.number()],
            };
        }
        _ => {}
    }
}

pub fn early(case: &Case, to: &mut Vec<u64>) {
    match alone(case) {
        Some((Err(Refused::Past), length)) if case.input.len() >= HEAD && HEAD + told(case) != length => {
            *to = vec![LENGTH_VALUE];
        }
        _ => {}
    }
}

/// tls-parser's answer of that function, where it parts by the length of a ticket.
fn theirs(case: &Case, function: &str) -> Option<Vec<u64>> {
    let mut theirs = Vec::new();
    if case.function != function {
        return None;
    }
    answer::read(case, &mut theirs);
    let stands = account::of(case, &theirs, &mut Vec::new());
    (stands == Stands::Parted(Class::TicketLength)).then_some(theirs)
}

pub fn message(case: &Case, to: &mut Vec<u64>) {
    theirs(case, MESSAGE).into_iter().for_each(|theirs| *to = theirs);
}

pub fn record(case: &Case, to: &mut Vec<u64>) {
    theirs(case, PLAINTEXT).into_iter().for_each(|theirs| *to = theirs);
}

pub fn content(case: &Case, to: &mut Vec<u64>) {
    theirs(case, WITH_HEADER).into_iter().for_each(|theirs| *to = theirs);
}

pub fn joined(case: &Case, to: &mut Vec<u64>) {
    theirs(case, MANY).into_iter().for_each(|theirs| *to = theirs);
}

/// Where tls-parser has more messages than the record, a later one is refused.
pub fn later(case: &Case, to: &mut Vec<u64>) {
    if theirs(case, PLAINTEXT).is_some_and(|theirs| to[0] == 0 && theirs[5] > to[5]) {
        *to = vec![LENGTH_VALUE];
    }
}

/// Of tls-parser, where it parts from Norrabist.
pub fn amiss(case: &Case, to: &mut Vec<u64>) {
    if case.function == MSG_TICKET && to[0] == 0 && to[5] > 2 {
        to[5] -= 1;
    }
}
