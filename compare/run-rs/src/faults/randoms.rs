//! Faults of what is handed out of a random: time, count and place of the other bytes.
#![allow(clippy::ptr_arg)] // they all have one type

use judge::case::Case;
use judge::table::*;

/// Of a body the random begins behind the version.
pub fn longer(case: &Case, to: &mut Vec<u64>) {
    if case.function == CLIENT_HELLO {
        to[0] = case.input[2..6].iter().fold(0, |n, b| n << 8 | u64::from(*b));
    }
}

pub fn four(case: &Case, to: &mut Vec<u64>) {
    if case.function == GEN_CLIENT_HELLO {
        to[0] = 0;
    }
}

pub fn early(case: &Case, to: &mut Vec<u64>) {
    if case.function == MSG_CLIENT_HELLO {
        (to[1], to[2]) = (to[1] + 1, to[2] - 1);
    }
}
