//! Faults of the readers: each changes the numbers of some answers.
#![allow(clippy::ptr_arg)] // they all have one type

use crate::norrabist::Walk;
use judge::case::Case;
use judge::table::refusal::{INCOMPLETE, LENGTH_VALUE, TAG};
use judge::table::version::SSL30;
use judge::table::*;

pub fn rest(case: &Case, to: &mut Vec<u64>) {
    if case.function == MSG_CLIENT_HELLO && to[0] == 0 {
        to[1] += 1;
    }
}

pub fn refusal(_: &Case, to: &mut Vec<u64>) {
    if *to == [LENGTH_VALUE] {
        *to = vec![INCOMPLETE];
    }
}

pub fn refused(case: &Case, to: &mut Vec<u64>) {
    if case.function == SERVER_HELLO && case.input.starts_with(&SSL30.to_be_bytes()) && to[0] == 0 {
        *to = vec![TAG];
    }
}

pub fn accepted(case: &Case, to: &mut Vec<u64>) {
    if case.function == MSG_KEY_UPDATE && *to == [INCOMPLETE] {
        *to = vec![0, 0, kind::KeyUpdate.into(), 0];
    }
}

/// The count stands behind the place of the rest and the kind.
pub fn missing(case: &Case, to: &mut Vec<u64>) {
    if case.function == MSG_CERTIFICATE && to[0] == 0 && to[3] >= 2 {
        to[3] -= 1;
        to.truncate(to.len() - 2);
    }
}

pub fn twice(case: &Case, to: &mut Vec<u64>) {
    if case.function == MSG_CERTIFICATE && to[0] == 0 && to[3] >= 2 {
        to[3] += 1;
        to.extend_from_within(to.len() - 2..);
    }
}

pub fn longer(case: &Case, to: &mut Vec<u64>) {
    if case.function == RAW && to[0] == 0 && to[6] >= 2 {
        to[6] += 1;
    }
}

pub fn later(case: &Case, to: &mut Vec<u64>) {
    if case.function == NEXT && to[0] == 0 && to[5] >= 1 {
        to[4] += 1;
    }
}

/// Of a hello without id the count of ciphers is the seventh number.
pub fn cipher(case: &Case, to: &mut Vec<u64>) {
    if case.function == CLIENT_HELLO && to[0] == 0 && to[5] == 0 && to[6] >= 2 {
        to[8] = u64::from((to[8] as u16).swap_bytes());
    }
}

pub fn absent(case: &Case, to: &mut Vec<u64>) {
    if case.function == MSG_RETRY && to[0] == 0 && to.last() == Some(&0) && to.len() == 6 {
        *to = [&to[..5], &[1, to[1], 0]].concat();
    }
}

/// Of a record of HelloRequests, which have a kind alone.
pub fn message(case: &Case, to: &mut Vec<u64>) {
    if case.function == PLAINTEXT
        && to[0] == 0
        && to[5] >= 2
        && to[6..].iter().all(|n| *n == kind::HelloRequest.into())
    {
        to[5] -= 1;
        to.pop();
    }
}

pub fn more(case: &Case, to: &mut Vec<u64>) {
    if case.function == ENCRYPTED && to[0] == 0 {
        to.push(0);
    }
}

pub fn huge(case: &Case, to: &mut Vec<u64>) {
    if case.function == MSG_SERVER_DONE && case.length > Some(u64::from(u32::MAX)) {
        *to = vec![0, 0, kind::ServerDone.into(), 0, 0];
    }
}

pub fn panic(case: &Case, to: &mut Vec<u64>) {
    assert!(case.function != STATUS || to[0] != 0 || to[4] < 3, "a blob of three bytes and more");
}

pub fn dropped(walk: Walk) -> Walk {
    Walk { dropped: walk.dropped + usize::from(walk.dropped > 0), ..walk }
}

pub fn ended(walk: Walk) -> Walk {
    Walk { end: if walk.messages > 1 { INCOMPLETE } else { walk.end }, ..walk }
}
